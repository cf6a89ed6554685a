//! The archive's flat answers as `plain` has them, member by member.

use sabrentuglio::raw;

pub fn value(answer: raw::Value) -> plain::Value {
    plain::Value {
        number: answer.number,
        place: answer.place,
        value: answer.value,
    }
}

pub fn issued(answer: raw::Issued) -> plain::Issued {
    plain::Issued {
        number: answer.number,
        place: answer.place,
        degree: answer.degree,
        complexity: answer.complexity,
        grade: answer.grade,
    }
}

pub fn cause(answer: raw::Cause) -> plain::Cause {
    plain::Cause {
        number: answer.number,
        place: answer.place,
        cause: answer.cause,
        field: answer.field,
        stored: answer.stored,
        right: answer.right,
    }
}

pub fn found(answer: raw::Found) -> plain::Found {
    plain::Found {
        number: answer.number,
        found: answer.found,
        element: answer.element,
        complexity: answer.complexity,
        grade: answer.grade,
        count: answer.count,
    }
}
