//! The commands, their help, and the choice between them.

use std::ffi::OsString;
use std::io::{ErrorKind, Write};
use std::path::Path;
use std::process::ExitCode;

use clap::error::ErrorKind as ParseErrorKind;
use clap::{Arg, ArgMatches};
use clearance::{Edge, Mesh, Water};
use surveys::plain::Plain;
use surveys::Survey;

use crate::arguments::{axis, corner, count, degrees, flag, number, path, place, taken, taken_place, words};
use crate::calendar;
use crate::convert;
use crate::drawing::{
    self, directory, directory_and_calendar, directory_and_clearance, directory_and_clearances, Subject,
    DIRECTORY, MINUTE,
};
use crate::examples;
use crate::facts;
use crate::failure::{refused, Failure};
use crate::files::{self, Reading};
use crate::formats;
use crate::json::{self, Answer, JSON};
use crate::picture::{self, Scene, Style};
use crate::svg;
use crate::view::Vector;
use crate::way::{self, Corner};

/// What a command prints on standard output, and its exit status.
struct Printed {
    text: String,
    status: u8,
}

impl From<String> for Printed {
    fn from(text: String) -> Printed {
        Printed { text, status: 0 }
    }
}

/// Names of arguments.
const AXIS: &str = "AXIS (x, y, z or 0, 1, 2)";
const REFERENCE: &str = "reference";
const FILE: &str = "FILE";
const OLD: &str = "OLD";
const NEW: &str = "NEW";

struct Command {
    name: &'static str,
    arguments: &'static str,
    summary: &'static str,
    help: &'static str,
    takes: fn() -> Vec<Arg>,
    run: fn(&ArgMatches) -> Result<Printed, Failure>,
}

fn directory_alone() -> Vec<Arg> {
    vec![path(DIRECTORY)]
}

/// The help of a clearance in place of that in its file.
macro_rules! clearance_help {
    () => {
        "\n--clearance N  take this clearance, a decimal number, as the nearest binary32; the file clearance is not read then"
    };
}

/// The help of a clearance, or of a calendar and a minute, in place of the clearance in its file.
macro_rules! calendar_help {
    () => {
        concat!(
            clearance_help!(),
            "\n--calendar FILE --minute N  draw at the clearance that is in force at this minute of the year, by the calendar in FILE; the\n\
             \x20                           file clearance is not read then. 16 refuses a calendar that breaks a rule, 17 a minute in no record"
        )
    };
}

/// The help of a command that prints the surface in a format.
macro_rules! mesh_help {
    ($format:literal) => {
        concat!(
            "Prints the surface as ",
            $format,
            ". Decimal numbers read back as the same binary32. As a whole the surface\n\
             turns counter-clockwise seen from the dry side; a single triangle may turn the other way. A missing file of cells,\n\
             corners or clearance is an error.",
            calendar_help!()
        )
    };
}

const COMMANDS: [Command; 12] = [
    Command {
        name: "check",
        arguments: "DIR",
        summary: "say whether a survey is lawful",
        help: "Prints 'lawful', or 'refused', the number of the first refusal of 1 to 6, 14, 15 and 7, in this order, that\n\
               applies, and its words. Reads cells, corners and amendments; the clearance is not looked at. So a lawful survey\n\
               may still be refused for drawing, by 12, if the pool runs out of the surveyed box. A missing file of cells or\n\
               corners is an error.",
        takes: directory_alone,
        run: check,
    },
    Command {
        name: "draw",
        arguments: "DIR [--clearance N | --calendar FILE --minute N]",
        summary: "list the points and triangles of the surface",
        help: concat!(
            "Prints the listing of document 01's drawing program: the counts; a line 'v' for each point with the bits\n\
             of x, y and z in hexadecimal; a line 't' for each triangle with its point numbers. On refusal prints\n\
             'refused' and the number, and the words on standard error. There is no limit on points and triangles.\n\
             A pool that runs out of the surveyed box (a corner on an outer face is wet) is refused by 12, so what is drawn\n\
             is closed. A missing file of DIR counts as empty, as it does for that program. But four bytes in the file\n\
             clearance that spell a number are an error, which that program would take for a binary32 next to 0.",
            calendar_help!()
        ),
        takes: directory_and_calendar,
        run: draw,
    },
    Command {
        name: "enquire",
        arguments: "DIR AXIS X Y Z LENGTH [--clearance N]",
        summary: "ask about one edge",
        help: concat!(
            "Asks about the edge along AXIS (x, y, z or 0, 1, 2) from the lower end (X, Y, Z) over LENGTH. Prints 'even',\n\
             or 'crossing', the point's number, its x, y and z, and 'lower end wet' or 'upper end wet'. A pool that runs\n\
             out of the surveyed box is answered for too. A missing file of cells, corners or clearance is an error.",
            clearance_help!()
        ),
        takes: || {
            let edge = [axis(AXIS)].into_iter().chain(["X", "Y", "Z", "LENGTH"].map(number));
            directory_and_clearance().into_iter().chain(edge).collect()
        },
        run: enquire,
    },
    Command {
        name: "info",
        arguments: "DIR [--clearance N]",
        summary: "count cells, corners, points and triangles; give the volume",
        help: concat!(
            "Prints the cell records, the greatest depth, the leaves, corners, points and triangles, and the volume inside\n\
             the surface in cubic units, as 'volume' gives it; the whole box has 1073741824. A pool that runs out of the\n\
             surveyed box is refused whole, by 12: nothing of it is counted. Where there are amendments, they are counted too,\n\
             and those in force. A missing file of cells, corners or clearance is an error.",
            clearance_help!()
        ),
        takes: directory_and_clearance,
        run: info,
    },
    Command {
        name: "volume",
        arguments: "DIR [--clearance N] [--reference X Y Z]",
        summary: "give the volume of the water inside the surface",
        help: concat!(
            "Prints 'volume' and the space inside the surface in cubic units, to the nearest thousandth, then 'sixfold' and six\n\
             times the space in cubic sixteenths of a unit (a cubic unit has 4096), a whole number. For both, each coordinate of\n\
             each point is taken down to a whole sixteenth.\n\
             --reference X Y Z  reckon from this point of the box, in whole units (0 0 0); every point gives the same\n\
             A coordinate above 1024 is refused by 13, and a pool that runs out of the surveyed box by 12. A missing file of\n\
             cells, corners or clearance is an error.",
            clearance_help!()
        ),
        takes: || directory_and_clearance().into_iter().chain([place(REFERENCE)]).collect(),
        run: volume,
    },
    Command {
        name: "way",
        arguments: "DIR START END [--clearance N].. [--json]",
        summary: "show a way over wet corners, for one boat or a convoy",
        help: concat!(
            "Shows a way for the hull's keel point from the corner START to the corner END, each given by its record number, from 0, or by its\n\
             place x,y,z: over wet corners joined by edges that are not divided, with the fewest steps. Of equally short ways it is the one\n\
             with the lowest record number at the first place where they differ. Prints a line for each corner of the way, then how many\n\
             steps it has and how long it is in units, the sum of the lengths of its edges. In the example weir-pool it goes over the\n\
             drowned crest, and at a clearance of 32 there is none:\n\n\
             \x20   clearance example weir-pool pool\n\
             \x20   clearance way pool 256,512,512 768,512,256\n\
             \x20   clearance way pool 256,512,512 768,512,256 --clearance 32\n\n\
             With several clearances, up to 16, it is a way for a convoy, whose boats follow one another on one line: its corners are wet at\n\
             all of them, and it is the way of one boat at the greatest. A last line says how many boats there are, and the greatest clearance:\n\n\
             \x20   clearance way pool 256,512,512 768,512,256 --clearance 10 --clearance 24.5 --clearance 12\n\n\
             More than 16 clearances are refused by 21. A clearance beyond its range is refused by 8; of a convoy it is said which. If START\n\
             or END is no corner, that is refused by 18. If there is no way, that is refused by 20, with whether START or END is dry, how many\n\
             corners can be reached from START, and for a convoy at which of its clearances a boat alone has a way. A pool that runs out of the\n\
             surveyed box serves as any other. A missing file of cells, corners or clearance is an error.\n\
             --json         print one object: start, end, clearance, steps, length and corners, each with its record and its place; for a convoy\n\
             \x20              clearances, in the order given, and greatest in the place of clearance; for a refusal its number, refused, and its\n\
             \x20              words, which stand on standard error too",
            clearance_help!(),
            ";\n               it stands there once for each boat of a convoy"
        ),
        takes: || {
            let ends = way::ENDS.map(corner);
            directory_and_clearances().into_iter().chain(ends).chain([flag(JSON)]).collect()
        },
        run: way,
    },
    Command {
        name: "obj",
        arguments: "DIR [--clearance N | --calendar FILE --minute N]",
        summary: "write the surface as Wavefront OBJ",
        help: mesh_help!("Wavefront OBJ"),
        takes: directory_and_calendar,
        run: |arguments| mesh(arguments, formats::obj),
    },
    Command {
        name: "ply",
        arguments: "DIR [--clearance N | --calendar FILE --minute N]",
        summary: "write the surface as PLY (ascii)",
        help: mesh_help!("PLY, ascii 1.0"),
        takes: directory_and_calendar,
        run: |arguments| mesh(arguments, formats::ply),
    },
    Command {
        name: "render",
        arguments: "DIR OUT.png|OUT.svg [--clearance N | --calendar FILE --minute N] [--turn DEGREES] [--tilt DEGREES] [--edges]\n\
                    \x20                       [--cells] [--inside] [--near]",
        summary: "make a picture of the surface",
        help: concat!(
            "Writes a picture of the surface and the box; the name's end chooses PNG or SVG. Higher places are lighter.\n\
             --turn DEGREES  turn about the z axis (30); at 0 one looks along y\n\
             --tilt DEGREES  look from so far above the horizon (35)\n\
             --edges         show the edges of triangles\n\
             --cells         show the edges of the cells; the surface hides those behind it\n\
             --inside        look into the wet space: leave out the sides towards the viewer\n\
             --near          let the surface fill the picture, and not the box\n\
             A missing file of cells, corners or clearance is an error. The picture is written over.",
            calendar_help!()
        ),
        takes: || {
            let looks = [path("OUT"), degrees("turn", "30"), degrees("tilt", "35")];
            let flags = ["edges", "cells", "inside", "near"].map(flag);
            directory_and_calendar().into_iter().chain(looks).chain(flags).collect()
        },
        run: render,
    },
    Command {
        name: "calendar",
        arguments: "FILE [--minute N]",
        summary: "show a calendar in words",
        help: "Prints 'lawful' and the number of records of the calendar in FILE; then, from the year's first minute to its last, a line\n\
               for each record with its from, until and clearance, and one for each gap, in which nothing is in force. Minutes are\n\
               given as day and time of day too; day 1 has the minutes 0 to 1439. A record is in force from its minute 'from' up to,\n\
               not including, 'until'. A clearance that would be refused when in force, by 8, is marked.\n\
               --minute N  say last which record and which clearance is in force at this minute, or that none is; the exit status is 1\n\
               \x20           where none is (17), or the clearance in force is refused (8)\n\
               If a record breaks a rule, or the calendar is not whole records, prints 'refused 16', its words, and which record breaks which\n\
               rule, for the first 20; the exit status is 1. A missing FILE is an error.",
        takes: || vec![path(FILE), count(MINUTE)],
        run: show_calendar,
    },
    Command {
        name: "convert",
        arguments: "OLD NEW",
        summary: "give a corner table of 10-byte records days",
        help: "Reads the corner table in the file OLD, with records of 10 bytes as they were before amendments, and writes it into\n\
               the new file NEW with records of 12 bytes, all of day 0. OLD stays as it is, and no file is written over:\n\n\
               \x20   clearance convert pool/corners pool/corners-12 && mv pool/corners-12 pool/corners\n\n\
               Nothing is written if OLD is empty, not whole records of 10 bytes or over 48720 bytes, if its records don't rise,\n\
               as those of a corner table do, if it has records of 12 bytes already, or if it could be read either way: that is an error.",
        takes: || vec![path(OLD), path(NEW)],
        run: convert,
    },
    Command {
        name: "example",
        arguments: "[NAME DIR]",
        summary: "write an example survey, or list the names",
        help: "Writes the files cells, corners and clearance of the example NAME, and amendments and a calendar if it has them, into DIR,\n\
               which is made if need be. Nothing is written if DIR has one of these five files already. Without arguments, lists the names.",
        takes: || vec![path("NAME").required(false).requires(DIRECTORY), path(DIRECTORY).required(false)],
        run: example,
    },
];

/// Runs the command that the arguments ask for.
pub fn run(arguments: Vec<OsString>) -> ExitCode {
    let printed = chosen(arguments).unwrap_or_else(|failure| {
        eprintln!("clearance: {failure}");
        if let Failure::Usage(_) = failure {
            eprintln!(
                "'clearance --help' lists the commands, 'clearance COMMAND --help' says what one takes."
            );
        }
        Printed { text: String::new(), status: failure.exit_status() }
    });
    let mut out = std::io::stdout().lock();
    match out.write_all(printed.text.as_bytes()).and_then(|()| out.flush()) {
        Ok(()) => printed.status.into(),
        // Whoever reads has read enough, as `head` does.
        Err(error) if error.kind() == ErrorKind::BrokenPipe => printed.status.into(),
        Err(error) => {
            eprintln!("clearance: standard output: {error}");
            2.into()
        }
    }
}

fn chosen(arguments: Vec<OsString>) -> Result<Printed, Failure> {
    match command_line().try_get_matches_from(arguments) {
        Ok(read) => {
            let (name, arguments) = read.subcommand().expect("clap has found a command");
            let command =
                COMMANDS.iter().find(|command| name == command.name).expect("a command of the table");
            (command.run)(arguments)
        }
        Err(help) if help.kind() == ParseErrorKind::DisplayHelp => Ok(help.to_string().into()),
        Err(asked) if asked.kind() == ParseErrorKind::DisplayVersion => Ok(version().into()),
        Err(error) => Err(Failure::Usage(words(&error))),
    }
}

fn command_line() -> clap::Command {
    let commands = COMMANDS.iter().map(|command| {
        clap::Command::new(command.name).override_help(command_help(command)).args((command.takes)())
    });
    let whole = clap::Command::new("clearance").no_binary_name(true).override_help(overview());
    whole.version(env!("CARGO_PKG_VERSION")).subcommand_required(true).subcommands(commands)
}

/// The version of the tool, and that of the calls of the library in it.
fn version() -> String {
    format!("clearance {}, library calls of version {}\n", env!("CARGO_PKG_VERSION"), clearance::version())
}

fn overview() -> String {
    let lines = COMMANDS.iter().map(|command| format!("  {:<8} {}\n", command.name, command.summary));
    format!(
        "Checks and draws lock surveys: the clearance surface over an octree of soundings, by the proved library.\n\n\
         usage: clearance COMMAND ARGUMENTS\n\n{}\n\
         DIR is a directory with the files cells, corners and clearance (four bytes, a little-endian binary32), and amendments if\n\
         corners were sounded again; without this file there are none. Of several records for a corner that of the highest day holds.\n\
         A corner is wet if its sounding is greater than the clearance; ground exactly at the clearance is dry.\n\
         A survey with a wet corner on an outer face of the box is not drawn; 'check', 'enquire' and 'way' still take it.\n\
         Every command that needs a clearance takes --clearance N in place of the file; 'way' takes it several times, for a convoy; where\n\
         clearances change over the year, 'draw', 'obj', 'ply' and 'render' take a calendar and a minute. A file clearance that holds a\n\
         number as text is an error.\n\
         'clearance COMMAND --help' says more of a command, 'clearance --version' the version of the tool and of the library's calls.\n\
         Exit status: 0 if all is well, 1 if something is refused, 2 if the command line or a file is wrong.\n",
        lines.collect::<String>()
    )
}

fn command_help(command: &Command) -> String {
    format!("usage: clearance {} {}\n\n{}\n", command.name, command.arguments, command.help)
}

fn check(arguments: &ArgMatches) -> Result<Printed, Failure> {
    let survey = files::read(directory(arguments), Reading::TABLES)?;
    Ok(match clearance::check(files::tables(&survey)) {
        Ok(()) => String::from("lawful\n").into(),
        Err(refusal) => Printed { text: refused(refusal) + "\n", status: 1 },
    })
}

fn draw(arguments: &ArgMatches) -> Result<Printed, Failure> {
    let (subject, missing) = Subject::read_as_program(arguments)?;
    for path in missing {
        eprintln!("clearance: {} is missing and counts as empty", path.display());
    }
    Ok(match subject.drawn() {
        Ok(mesh) => formats::listing(&mesh).into(),
        Err(refusal) => {
            eprintln!("clearance: {}", refused(refusal));
            Printed { text: format!("refused {}\n", refusal.number()), status: 1 }
        }
    })
}

fn enquire(arguments: &ArgMatches) -> Result<Printed, Failure> {
    let [axis, x, y, z, length] = [AXIS, "X", "Y", "Z", "LENGTH"].map(|name| *taken::<u32>(arguments, name));
    let survey = drawing::survey(arguments)?;
    let edge = clearance::enquire(files::tables(&survey), survey.clearance, axis, [x, y, z], length)?;
    Ok(match edge {
        Edge::Even => String::from("even\n"),
        Edge::Crossing { number, place: [x, y, z], wet_end } => {
            format!("crossing {number} {x} {y} {z} {wet_end} wet\n")
        }
    }
    .into())
}

fn info(arguments: &ArgMatches) -> Result<Printed, Failure> {
    Ok(facts::facts(&drawing::survey(arguments)?)?.to_string().into())
}

fn volume(arguments: &ArgMatches) -> Result<Printed, Failure> {
    let survey = drawing::survey(arguments)?;
    let Water { sixfold, .. } = facts::water(&survey, taken_place(arguments, REFERENCE))?;
    Ok(format!("volume   {}\nsixfold  {sixfold}\n", facts::cubic_units(sixfold)).into())
}

fn way(arguments: &ArgMatches) -> Result<Printed, Failure> {
    let ends = way::ENDS.map(|name| *taken::<Corner>(arguments, name));
    let (survey, clearances) = drawing::survey_and_clearances(arguments)?;
    answered(arguments, way::find(&survey, &clearances, ends))
}

/// What a command found, in words or, with `--json`, as an object. A refusal is an object too then, beside its words on standard error.
fn answered(arguments: &ArgMatches, found: Result<impl Answer, Failure>) -> Result<Printed, Failure> {
    match found {
        Ok(answer) if arguments.get_flag(JSON) => Ok(json::line(&answer.object()).into()),
        Ok(answer) => Ok(answer.to_string().into()),
        Err(Failure::Refused { refusal, words }) if arguments.get_flag(JSON) => {
            let text = json::line(&json::refusal(refusal, &words));
            let failure = Failure::Refused { refusal, words };
            eprintln!("clearance: {failure}");
            Ok(Printed { text, status: failure.exit_status() })
        }
        Err(failure) => Err(failure),
    }
}

fn mesh(arguments: &ArgMatches, format: fn(&Mesh) -> String) -> Result<Printed, Failure> {
    Ok(format(&Subject::read(arguments)?.drawn()?).into())
}

fn render(arguments: &ArgMatches) -> Result<Printed, Failure> {
    let [turn, tilt] = ["turn", "tilt"].map(|name| *taken(arguments, name));
    let [edges, cells, inside, near] =
        ["edges", "cells", "inside", "near"].map(|name| arguments.get_flag(name));
    let style = Style { turn, tilt, edges, inside, near };
    let out = Path::new(taken::<OsString>(arguments, "OUT"));
    let make: fn(&Scene) -> Vec<u8> = match out.extension().and_then(|end| end.to_str()) {
        Some("png") => picture::png,
        Some("svg") => |scene| svg::svg(scene).into_bytes(),
        _ => return Err(Failure::Usage(format!("{}: a picture's name ends in .png or .svg", out.display()))),
    };
    let subject = Subject::read(arguments)?;
    let mesh = subject.drawn()?;
    let lines = if cells { cell_lines(&subject.survey) } else { Vec::new() };
    std::fs::write(out, make(&Scene { mesh, lines, style })).map_err(Failure::of_file(out))?;
    Ok(String::new().into())
}

/// The undivided edges of the cells of a lawful survey, by their ends.
fn cell_lines(survey: &Survey) -> Vec<[Vector; 2]> {
    let plain = Plain::read(survey);
    let undivided = plain.edges.iter().filter(|&&edge| !plain.is_divided(edge));
    undivided.map(|edge| [edge.low(), edge.high()].map(|end| end.map(f64::from))).collect()
}

fn show_calendar(arguments: &ArgMatches) -> Result<Printed, Failure> {
    let calendar = files::read_file(Path::new(taken::<OsString>(arguments, FILE)))?;
    Ok(match calendar::words(&calendar, arguments.get_one(MINUTE).copied()) {
        Ok(text) => text.into(),
        Err(text) => Printed { text, status: 1 },
    })
}

fn convert(arguments: &ArgMatches) -> Result<Printed, Failure> {
    let [old, new] = [OLD, NEW].map(|name| Path::new(taken::<OsString>(arguments, name)));
    let table = files::read_file(old)?;
    let dated = convert::dated(&table)
        .map_err(|words| Failure::Unfit { path: old.to_path_buf(), words: words.to_owned() })?;
    files::write_new(new, &dated)?;
    Ok(String::new().into())
}

fn example(arguments: &ArgMatches) -> Result<Printed, Failure> {
    let Some(name) = arguments.get_one::<OsString>("NAME") else {
        let line = |example: &examples::Example| format!("{:<18} {}\n", example.name, example.words);
        return Ok(examples::EXAMPLES.iter().map(line).collect::<String>().into());
    };
    let found = name.to_str().and_then(examples::find);
    let unknown =
        || Failure::Usage(format!("no example {}; 'clearance example' lists them", name.to_string_lossy()));
    let example = found.ok_or_else(unknown)?;
    files::write(directory(arguments), &(example.survey)(), &(example.calendar)())?;
    Ok(String::new().into())
}
