//! What `rt check` said of an edited crate.

#[derive(Clone, Copy, PartialEq, Eq, Debug)]
pub enum Verdict {
    /// The edited code is not a program.
    Compiler,
    /// A fact that the proof needs does not hold.
    Fact,
    /// The proof was written for other code: it names what is no longer there. This says nothing of the promise.
    Shape,
    /// The edited crate is proved.
    Taken,
    /// Neither proved nor refused: the time was up, or the toolchain failed.
    None,
}

pub const VERDICTS: &[Verdict] = &[
    Verdict::Compiler,
    Verdict::Fact,
    Verdict::Shape,
    Verdict::Taken,
    Verdict::None,
];

impl Verdict {
    pub fn word(self) -> &'static str {
        match self {
            Verdict::Compiler => "compiler",
            Verdict::Fact => "fact",
            Verdict::Shape => "shape",
            Verdict::Taken => "taken",
            Verdict::None => "none",
        }
    }
}

/// How the prover says that a proof names or binds what the code no longer has.
const SHAPE_WORDS: &[&str] = &[
    "that can be named from here",
    "needs a function (or path) type to bind",
    "has no field",
    "is not in scope",
];

/// `status` is that of `rt check`, none if a signal ended it.
pub fn verdict(status: Option<i32>, said: &str) -> Verdict {
    if status == Some(0) {
        return Verdict::Taken;
    }
    if status != Some(1) {
        return Verdict::None;
    }
    if !said.contains("logic=not-proved") {
        let refused = said.lines().any(|line| line.contains(": error["));
        return if refused {
            Verdict::Compiler
        } else {
            Verdict::None
        };
    }
    let error = first_error(said);
    let shape = SHAPE_WORDS.iter().any(|words| error.contains(words));
    if shape || asks_at_another_step(error) {
        Verdict::Shape
    } else {
        Verdict::Fact
    }
}

/// Whether the proof takes a need for that of another step of the code: then the types differ in the step's name, which is in a
/// module `Lts`.
fn asks_at_another_step(error: &str) -> bool {
    let differing = error.split("differ only where one has `").nth(1);
    let name = differing.and_then(|text| text.split('`').next());
    name.is_some_and(|name| name.contains(".Lts.") && !name.contains(' '))
}

/// The first line with an error of its own, empty if there is none: that a proof which `search` alone should find is not
/// found is said in another way. What is not checked because it uses something refused is no error of its own.
fn first_error(said: &str) -> &str {
    let errors = said.lines().filter(|line| line.contains(": error: "));
    let mut own = errors.filter(|line| !line.contains("was not admitted"));
    own.next().unwrap_or("")
}

#[cfg(test)]
mod tests {
    use super::*;

    #[test]
    fn proved_is_taken() {
        assert_eq!(verdict(Some(0), "rt: ok, 2 crates proved"), Verdict::Taken);
    }

    #[test]
    fn the_compiler_refuses_before_the_logic() {
        let said =
            "src/lib.rt:33:15: error[invalid-operand-type]: expected a number\nrt: FAILED: trees";
        assert_eq!(verdict(Some(1), said), Verdict::Compiler);
    }

    #[test]
    fn the_first_error_tells_a_fact_from_a_shape() {
        let fact = "P.antt:31:79: error: `returns`: `omega`: the goal does not follow\n";
        let shape = "P.antt:66:10: error: `add-at`: module `T` has no `Need-add-at` that can be named from here\n";
        let end = "logic=not-proved\n";
        assert_eq!(
            verdict(Some(1), &format!("{fact}{shape}{end}")),
            Verdict::Fact
        );
        assert_eq!(
            verdict(Some(1), &format!("{shape}{fact}{end}")),
            Verdict::Shape
        );
    }

    #[test]
    fn a_need_of_another_step_is_a_shape() {
        let said = |name: &str| {
            let differ = "the two types differ only where one has";
            format!("P.antt:7:3: error: `add-total`: {differ} `{name}`\nlogic=not-proved\n")
        };
        assert_eq!(
            verdict(Some(1), &said("length_of.Lts.Start")),
            Verdict::Shape
        );
        assert_eq!(
            verdict(Some(1), &said("get 1 (f.Lts.T5 .locals)")),
            Verdict::Fact
        );
    }

    #[test]
    fn what_follows_from_another_refusal_is_passed_over() {
        let derived = "P.antt:9:5: error: `spec`: `close` was not admitted (it was rejected)\n";
        let shape = "Q.antt:6:1: error: `add`: `n` is not in scope\n";
        let end = "fn wide: no proof: `search` does not close `returns`\nlogic=not-proved\n";
        assert_eq!(
            verdict(Some(1), &format!("{derived}{shape}{end}")),
            Verdict::Shape
        );
        assert_eq!(verdict(Some(1), &format!("{derived}{end}")), Verdict::Fact);
    }

    #[test]
    fn no_answer_is_no_verdict() {
        assert_eq!(verdict(Some(124), ""), Verdict::None);
        assert_eq!(verdict(None, ""), Verdict::None);
        assert_eq!(verdict(Some(1), "rt: something else"), Verdict::None);
    }
}
