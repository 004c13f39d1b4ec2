//! What commands take, for clap to read, and the tool's words for a command line that clap can't read.

use std::any::Any;
use std::error::Error as _;
use std::ffi::OsString;
use std::str::FromStr;

use clap::error::{ContextKind, ContextValue, Error, ErrorKind};
use clap::{Arg, ArgAction, ArgMatches};

use crate::way::Corner;

/// A path or a name, in any letters.
pub fn path(name: &'static str) -> Arg {
    Arg::new(name).required(true).value_parser(clap::value_parser!(OsString))
}

/// A whole number. What looks like a negative one is no option, but a number that does not fit.
pub fn number(name: &'static str) -> Arg {
    Arg::new(name).required(true).allow_negative_numbers(true).value_parser(fitting::<u32>)
}

/// An axis by its letter or its number.
pub fn axis(name: &'static str) -> Arg {
    number(name).value_parser(|text: &str| match text {
        "x" => Ok(0),
        "y" => Ok(1),
        "z" => Ok(2),
        _ => fitting::<u32>(text),
    })
}

/// A corner by its record number or its place.
pub fn corner(name: &'static str) -> Arg {
    number(name).value_parser(Corner::from_str)
}

/// An option with a number of degrees.
pub fn degrees(name: &'static str, otherwise: &'static str) -> Arg {
    let finite = |text: &str| match fitting::<f64>(text) {
        Ok(degrees) if !degrees.is_finite() => Err("is no finite number of degrees"),
        degrees => degrees,
    };
    let option = Arg::new(name).long(name).allow_hyphen_values(true);
    option.value_name("DEGREES").default_value(otherwise).value_parser(finite)
}

/// An option with a file.
pub fn file(name: &'static str) -> Arg {
    Arg::new(name).long(name).value_name("FILE").value_parser(clap::value_parser!(OsString))
}

/// An option with a whole number, which may be left out.
pub fn count(name: &'static str) -> Arg {
    number(name).required(false).long(name).value_name("N")
}

/// An option with a decimal number, of which the nearest binary32 is taken; it may be left out.
pub fn decimal(name: &'static str) -> Arg {
    count(name).value_parser(fitting::<f32>)
}

/// An option with a decimal number that may stand there any number of times, each with one more number.
pub fn decimals(name: &'static str) -> Arg {
    decimal(name).action(ArgAction::Append)
}

/// An option with the three coordinates of a place; 0 0 0 if it is left out.
pub fn place(name: &'static str) -> Arg {
    let option = Arg::new(name).long(name).num_args(3).allow_negative_numbers(true);
    option.value_names(["X", "Y", "Z"]).default_values(["0"; 3]).value_parser(fitting::<u32>)
}

/// An option without a value, which may stand there more than once.
pub fn flag(name: &'static str) -> Arg {
    Arg::new(name).long(name).action(ArgAction::SetTrue).overrides_with(name)
}

fn fitting<N: FromStr>(text: &str) -> Result<N, &'static str> {
    text.parse().map_err(|_| "is no number that fits")
}

/// The three coordinates of a place.
pub fn taken_place(arguments: &ArgMatches, name: &str) -> [u32; 3] {
    let coordinates: Vec<u32> = arguments.get_many(name).expect("clap has found values").copied().collect();
    coordinates.try_into().expect("clap has found three")
}

/// The value of an argument that is required or has a default.
pub fn taken<'a, T: Any + Clone + Send + Sync>(arguments: &'a ArgMatches, name: &str) -> &'a T {
    arguments.get_one(name).expect("clap has found a value")
}

/// What is wrong with a command line.
pub fn words(error: &Error) -> String {
    let value = |kind| match error.get(kind) {
        Some(ContextValue::String(value)) => value,
        Some(ContextValue::Strings(values)) => values.first().map_or("", String::as_str),
        _ => "",
    };
    let [given, prior] = [ContextKind::InvalidArg, ContextKind::PriorArg].map(value);
    let [(name, needs), (prior_name, _)] = [given, prior].map(name_and_needs);
    match error.kind() {
        ErrorKind::MissingSubcommand => "a command is missing".to_owned(),
        ErrorKind::InvalidSubcommand => format!("unknown command {}", value(ContextKind::InvalidSubcommand)),
        ErrorKind::MissingRequiredArgument => format!("{name} is missing"),
        ErrorKind::UnknownArgument if given.starts_with('-') => format!("unknown option {given}"),
        ErrorKind::UnknownArgument => format!("one argument too many: {given}"),
        ErrorKind::ArgumentConflict if given == prior => format!("{name} is there twice"),
        ErrorKind::ArgumentConflict => format!("{name} does not go with {prior_name}"),
        ErrorKind::InvalidValue | ErrorKind::WrongNumberOfValues => {
            format!("{name} needs {}", needs.replace(['<', '>'], ""))
        }
        ErrorKind::ValueValidation => {
            let wrong = error.source().map_or_else(String::new, |wrong| wrong.to_string());
            format!("{name}: {} {wrong}", value(ContextKind::InvalidValue))
        }
        ErrorKind::InvalidUtf8 => "a number is not written in UTF-8".to_owned(),
        _ => error.to_string(),
    }
}

/// An argument's name and what it needs: clap has <DIR>, [DIR] where it may be left out, --turn <DEGREES> and --reference <X> <Y> <Z>.
fn name_and_needs(given: &str) -> (&str, &str) {
    let (name, needs) = given.split_once(" <").unwrap_or((given, ""));
    (name.trim_matches(['<', '>', '[', ']']), needs)
}

#[cfg(test)]
mod tests {
    use super::*;

    fn read(takes: &[Arg], given: &[&str]) -> Result<ArgMatches, String> {
        let command = clap::Command::new("test").no_binary_name(true).args(takes);
        command.try_get_matches_from(given).map_err(|error| words(&error))
    }

    #[test]
    fn options_are_taken_from_anywhere() {
        let takes = [
            path("DIR"),
            path("OUT"),
            flag("edges"),
            flag("near"),
            degrees("turn", "30"),
            degrees("tilt", "35"),
            place("from"),
            place("to"),
        ];
        let given = ["--turn", "-30", "--from", "1", "2", "3", "here", "--edges", "there", "--edges"];
        let given = read(&takes, &given).unwrap();
        assert_eq!(["DIR", "OUT"].map(|name| taken::<OsString>(&given, name)), ["here", "there"]);
        assert_eq!(["edges", "near"].map(|name| given.get_flag(name)), [true, false]);
        assert_eq!(["turn", "tilt"].map(|name| *taken::<f64>(&given, name)), [-30.0, 35.0]);
        assert_eq!(["from", "to"].map(|name| taken_place(&given, name)), [[1, 2, 3], [0, 0, 0]]);
    }

    #[test]
    fn axes_have_letters_and_numbers() {
        for (text, axis_number) in [("x", 0), ("y", 1), ("z", 2), ("0", 0), ("2", 2), ("3", 3)] {
            assert_eq!(*taken::<u32>(&read(&[axis("AXIS")], &[text]).unwrap(), "AXIS"), axis_number);
        }
    }

    #[test]
    fn decimals_are_the_nearest_binary32() {
        let cases = [("24", 24.0), ("0.1", 0.1), ("-3.5e-2", -0.035), ("-0", -0.0), ("inf", f32::INFINITY)];
        for (text, clearance) in cases {
            let read = read(&[decimal("clearance")], &["--clearance", text]).unwrap();
            assert_eq!(taken::<f32>(&read, "clearance").to_bits(), clearance.to_bits(), "{text}");
        }
    }

    #[test]
    fn decimals_are_taken_in_the_order_given() {
        let cases: [(&[&str], &[f32]); 3] = [
            (&[], &[]),
            (&["--clearance", "24"], &[24.0]),
            (&["--clearance", "0.1", "--clearance", "-3", "--clearance", "0.1"], &[0.1, -3.0, 0.1]),
        ];
        for (given, numbers) in cases {
            let read = read(&[decimals("clearance")], given).unwrap();
            assert!(read.get_many::<f32>("clearance").unwrap_or_default().eq(numbers), "{given:?}");
        }
    }

    #[test]
    fn what_does_not_fit_is_named() {
        let pair = [path("NAME").required(false).requires("DIR"), path("DIR").required(false)];
        let dated = [file("calendar").requires("minute"), count("minute").requires("calendar")];
        let either = [
            decimal("clearance").conflicts_with_all(["calendar", "minute"]),
            dated[0].clone(),
            dated[1].clone(),
        ];
        let several = [decimals("clearance")];
        let cases: [(&[Arg], &[&str], &str); 28] = [
            (&[path("DIR"), path("OUT")], &["here"], "OUT is missing"),
            (&pair, &["here"], "DIR is missing"),
            (&[path("DIR")], &["here", "there"], "one argument too many: there"),
            (&[path("DIR")], &["--tun"], "unknown option --tun"),
            (&[degrees("turn", "30")], &["--turn"], "--turn needs DEGREES"),
            (&[degrees("turn", "30")], &["--turn", "1", "--turn", "2"], "--turn is there twice"),
            (&[degrees("tilt", "35")], &["--tilt", "inf"], "--tilt: inf is no finite number of degrees"),
            (&[degrees("tilt", "35")], &["--tilt", "--turn"], "--tilt: --turn is no number that fits"),
            (&[place("from")], &["--from"], "--from needs X Y Z"),
            (&[place("from")], &["--from", "1", "2"], "--from needs X Y Z"),
            (&[place("from")], &["--from", "1", "2", "3", "4"], "one argument too many: 4"),
            (&[place("from")], &["--from", "1", "-2", "3"], "--from: -2 is no number that fits"),
            (&[place("from")], &["--from", "1", "2", "3", "--from", "1", "2", "3"], "--from is there twice"),
            (&dated, &["--calendar", "here"], "--minute is missing"),
            (&dated, &["--minute", "3"], "--calendar is missing"),
            (&dated, &["--calendar"], "--calendar needs FILE"),
            (&dated, &["--calendar", "here", "--minute", "-3"], "--minute: -3 is no number that fits"),
            (
                &dated,
                &["--calendar", "here", "--minute", "4294967296"],
                "--minute: 4294967296 is no number that fits",
            ),
            (&either, &["--clearance"], "--clearance needs N"),
            (&either, &["--clearance", "--minute"], "--clearance needs N"),
            (&either, &["--clearance", "24,0"], "--clearance: 24,0 is no number that fits"),
            (&either, &["--clearance", "1", "--clearance", "1"], "--clearance is there twice"),
            (
                &either,
                &["--clearance", "1", "--calendar", "here", "--minute", "3"],
                "--clearance does not go with --calendar",
            ),
            (&several, &["--clearance", "1", "--clearance"], "--clearance needs N"),
            (&several, &["--clearance", "1", "2"], "one argument too many: 2"),
            (
                &several,
                &["--clearance", "1", "--clearance", "2;3"],
                "--clearance: 2;3 is no number that fits",
            ),
            (&[number("X")], &["-1"], "X: -1 is no number that fits"),
            (&[axis("AXIS")], &["w"], "AXIS: w is no number that fits"),
        ];
        for (takes, given, expected) in cases {
            assert_eq!(read(takes, given).unwrap_err(), expected);
        }
    }
}
