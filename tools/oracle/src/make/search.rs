//! Finds arguments at which a worked-out p, T or d crosses the end of its range.
//! By halving, on the ruled form: the result is the first number past the crossing.

/// The x between a and b, next to which f passes the target. None where f(a) and f(b) lie on the
/// same side of it.
pub fn crossing(a: f64, b: f64, target: f64, f: impl Fn(f64) -> f64) -> Option<f64> {
    let below = f(a) < target;
    if (f(b) < target) == below {
        return None;
    }
    let (mut near, mut far) = (a, b);
    loop {
        let middle = near + (far - near) / 2.0;
        if middle == near || middle == far {
            return Some(far);
        }
        if (f(middle) < target) == below {
            near = middle;
        } else {
            far = middle;
        }
    }
}
