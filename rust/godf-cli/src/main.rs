//! The command godf: cross fields on triangle floors, and pictures of them (`godf --help`).

mod arguments;
mod demo;
mod files;
mod parts;
mod refused;
mod stages;
mod svg;
mod text;

use arguments::{Arguments, Command, Demo};
use files::Outputs;
use godf::{BoundaryMode, Floor, Guidance, Options, Probe, Refined, Refusal, Singularity, Valence, Workspace};
use refused::described;
use stages::Stages;
use std::{ffi::OsString, fmt::Write, process::ExitCode};
use svg::Picture;
use text::{counted, grouped, OwnedFloor};

const REFUSED: u8 = 1;
const WRONG_USE: u8 = 2;
const ITERATIONS: usize = 100;
const WRITING: &str = "writing";

/// Why a command ends early.
enum Stop {
    /// The floor is refused, or the probe has no angle.
    Refused(String),
    Use(String),
}

impl From<String> for Stop {
    fn from(what: String) -> Self {
        Self::Use(what)
    }
}

/// A floor with its field, and the refined floor where it was refined.
struct Solved {
    /// The angles at the floor's own points.
    angles: Vec<f64>,
    refined: Option<(Refined, Vec<f64>)>,
    flagged: Vec<usize>,
}

impl Solved {
    /// The last pass's floor and angles.
    fn last<'a>(&'a self, given: Floor<'a>) -> (Floor<'a>, &'a [f64]) {
        match &self.refined {
            Some((refined, angles)) => (refined.floor(), angles),
            None => (given, &self.angles),
        }
    }
}

fn counts(floor: Floor) -> String {
    let [points, triangles] =
        [(floor.points.len(), "point"), (floor.triangles.len(), "triangle")].map(|(n, of)| counted(n, of));
    format!("{points}, {triangles}")
}

/// What a refinement did.
fn refinement(flagged: usize, cut: usize, refined: Floor) -> String {
    let (flagged, cut) = (counted(flagged, "triangle"), counted(cut, "side"));
    format!("refined: {flagged} flagged, {cut} cut: {}\n", counts(refined))
}

/// The options given, and these where none was.
fn options(arguments: &Arguments, boundary: BoundaryMode, adaptive: f64) -> Options {
    let boundary = arguments.boundary.unwrap_or(boundary);
    arguments
        .options
        .boundary(boundary)
        .adaptive(arguments.adaptive.unwrap_or(adaptive))
}

fn solve(stages: &mut Stages, given: &OwnedFloor, options: &Options, arguments: &Arguments) -> Result<Solved, Stop> {
    let guidance = match (arguments.guidance, &given.angles) {
        (None, _) => None,
        (Some(weight), Some(angles)) => Some(Guidance {
            weight,
            angle: angles.clone(),
        }),
        (Some(_), None) => {
            return Err(Stop::Use(
                "--guidance needs a floor with angles, which are its target".to_string(),
            ))
        }
    };
    let floor = given.floor();
    let iterations = arguments.iterations.unwrap_or(ITERATIONS);
    let run = || {
        let mut workspace = Workspace::new();
        let field = workspace.solve(floor, options, guidance.as_ref(), iterations)?;
        let refined = field.refined_floor(floor)?;
        let flagged = match refined {
            Some(_) => godf::flagged(field.first_angles(), floor.triangles, options.adaptive)?,
            None => vec![],
        };
        Ok(Solved {
            angles: field.angles().to_vec(),
            refined: refined.zip(field.refined_angles().map(<[f64]>::to_vec)),
            flagged,
        })
    };
    let solved = stages.run("solving", &format!("solving {}", counts(floor)), run);
    solved.map_err(|refusal| Stop::Refused(described(refusal, given)))
}

fn read(stages: &mut Stages, name: &str) -> Result<OwnedFloor, Stop> {
    let shown = files::shown(name);
    let read = || text::read(shown, &files::read(name)?);
    Ok(stages.run("reading", &format!("reading {shown}"), read)?)
}

/// The floor's own angles, or those of a solve without refining. Options of a solve that is not made are refused.
fn field(stages: &mut Stages, given: &OwnedFloor, arguments: &Arguments) -> Result<Vec<f64>, Stop> {
    if let (Some(angles), None) = (&given.angles, arguments.guidance) {
        return match arguments.solve_option() {
            Some(option) => Err(Stop::Use(format!(
                "{} has angles, which are the field: {option} would be ignored",
                given.name
            ))),
            None => Ok(angles.clone()),
        };
    }
    let options = options(arguments, BoundaryMode::None, 0.0).adaptive(0.0);
    Ok(solve(stages, given, &options, arguments)?.angles)
}

fn summed_up(options: &Options, arguments: &Arguments) -> String {
    let mut words = match options.boundary {
        BoundaryMode::None => "no boundary mode".to_string(),
        BoundaryMode::Tangent => "boundary tangent".to_string(),
        BoundaryMode::Weak(weight) => format!("boundary weak {weight}"),
    };
    if options.adaptive > 0.0 {
        let _ = write!(words, ", threshold {} rad", options.adaptive);
    }
    if options.holomorphic != 0.0 {
        let _ = write!(words, ", holomorphic {}", options.holomorphic);
    }
    if options.anisotropy != 1.0 {
        let _ = write!(
            words,
            ", anisotropy {} at {}",
            options.anisotropy, options.anisotropy_angle
        );
    }
    if let Some(weight) = arguments.guidance {
        let _ = write!(words, ", guidance {weight}");
    }
    if options.accurate {
        words += ", accurate";
    }
    words
}

impl Outputs {
    /// Makes a text and writes it; it is put in its place with the others.
    fn add(&mut self, stages: &mut Stages, name: &str, text: impl FnOnce() -> String) -> Result<(), Stop> {
        Ok(stages.run(WRITING, &format!("{WRITING} {name}"), || self.stage(name, text()))?)
    }
}

/// Puts the outputs in their places and then prints the summary: to standard output, or to standard error if an output went there.
fn write(stages: &mut Stages, outputs: Outputs, arguments: &Arguments, mut summary: String) -> Result<(), Stop> {
    let names = stages.run(WRITING, WRITING, || outputs.finish())?;
    if !names.is_empty() {
        let _ = writeln!(summary, "wrote {}", names.join(", "));
    }
    let _ = writeln!(summary, "time: {}", stages.times());
    if arguments.outputs().any(|name| name == files::STANDARD) {
        files::print_error(&summary);
    } else {
        files::print(&summary)?;
    }
    Ok(())
}

fn charges(of: &[Singularity]) -> String {
    let count = |valence| grouped(of.iter().filter(|s| s.valence == valence).count());
    format!(
        "{} of valence 3, {} of valence 5",
        count(Valence::Three),
        count(Valence::Five)
    )
}

/// Solves a floor and writes what is asked for.
fn solve_and_write(
    stages: &mut Stages,
    name: &str,
    given: &OwnedFloor,
    options: &Options,
    arguments: &Arguments,
) -> Result<(), Stop> {
    let floor = given.floor();
    let solved = solve(stages, given, options, arguments)?;
    let (last, angles) = solved.last(floor);
    let singularities: Vec<Singularity> = godf::singularities(angles, last.triangles).collect();
    let cut = solved
        .refined
        .as_ref()
        .map_or(&[][..], |(refined, _)| &refined.cut_sides);
    let mut summary = format!("{name}: {}; {}\n", counts(floor), summed_up(options, arguments));
    if options.adaptive > 0.0 {
        summary += &refinement(solved.flagged.len(), cut.len(), last);
    }
    let _ = writeln!(summary, "singularities: {}", charges(&singularities));
    let mut outputs = Outputs::default();
    if let Some(to) = &arguments.svg {
        let picture = Picture {
            title: name,
            subtitle: &format!("{}; {}", counts(last), summed_up(options, arguments)),
            floor: last,
            angles,
            singularities: &singularities,
            given: floor,
            flagged: &solved.flagged,
            cut,
        };
        let svg = stages.run("drawing", &format!("drawing {}", counts(last)), || svg::draw(&picture));
        outputs.add(stages, to, || svg)?;
    }
    if let Some(to) = &arguments.angles {
        outputs.add(stages, to, || text::write_angles(&solved.angles))?;
    }
    if let Some(to) = &arguments.floor {
        outputs.add(stages, to, || text::write(last, Some(angles)))?;
    }
    write(stages, outputs, arguments, summary)
}

fn refine_and_write(stages: &mut Stages, name: &str, given: &OwnedFloor, arguments: &Arguments) -> Result<(), Stop> {
    let floor = given.floor();
    let threshold = arguments.adaptive.unwrap_or(0.0);
    let angles = field(stages, given, arguments)?;
    let run = || {
        let refined = godf::refine(floor, &angles, threshold)?;
        Ok((refined, godf::flagged(&angles, floor.triangles, threshold)?))
    };
    let done = stages.run("refining", &format!("refining {}", counts(floor)), run);
    let (refined, flagged) = done.map_err(|refusal: Refusal| Stop::Refused(described(refusal, given)))?;
    let summary = format!(
        "{name}: {}\n{}",
        counts(floor),
        refinement(refined.flagged, refined.cut_sides.len(), refined.floor())
    );
    let mut outputs = Outputs::default();
    let mut arguments = arguments.clone();
    if arguments.outputs().next().is_none() {
        arguments.floor = Some(files::STANDARD.to_string());
    }
    if let Some(to) = &arguments.svg {
        let singularities: Vec<Singularity> = godf::singularities(&angles, floor.triangles).collect();
        let picture = Picture {
            title: name,
            subtitle: &format!(
                "{}; refined by {threshold} rad to {}",
                counts(floor),
                counts(refined.floor())
            ),
            floor,
            angles: &angles,
            singularities: &singularities,
            given: floor,
            flagged: &flagged,
            cut: &refined.cut_sides,
        };
        let svg = stages.run("drawing", &format!("drawing {}", counts(floor)), || svg::draw(&picture));
        outputs.add(stages, to, || svg)?;
    }
    if let Some(to) = &arguments.angles {
        outputs.add(stages, to, || text::write_angles(&angles))?;
    }
    if let Some(to) = &arguments.floor {
        outputs.add(stages, to, || text::write(refined.floor(), None))?;
    }
    write(stages, outputs, &arguments, summary)
}

fn probe(angles: &[f64], floor: Floor, at: [f64; 2]) -> Result<(), Stop> {
    let [x, y] = at;
    match godf::probe(angles, floor.points, floor.triangles, at) {
        Probe::Angle(angle) => Ok(files::print(&format!("{angle:?}\n"))?),
        Probe::NoAngle => Err(Stop::Refused(format!(
            "no angle at {x} {y}: no triangle contains the point, the field vanishes there, or an angle is not finite"
        ))),
        _ => Err(Stop::Refused(
            "no angle: the absolute value of an angle of the field is above 131,072".to_string(),
        )),
    }
}

fn list_singularities(angles: &[f64], floor: Floor) -> Result<(), Stop> {
    let all: Vec<Singularity> = godf::singularities(angles, floor.triangles).collect();
    let mut lines = String::from("# triangle valence x y (of its middle)\n");
    for s in &all {
        let corners = floor.triangles[s.triangle].map(|v| floor.points[v as usize]);
        let [x, y] = [0, 1].map(|i| corners.iter().map(|p| p[i] / 3.0).sum::<f64>());
        let valence = if s.valence == Valence::Three { 3 } else { 5 };
        let _ = writeln!(lines, "{} {valence} {x} {y}", s.triangle);
    }
    let _ = writeln!(lines, "# {}", charges(&all));
    Ok(files::print(&lines)?)
}

fn demo(stages: &mut Stages, demo: Demo, arguments: &Arguments) -> Result<(), Stop> {
    let scene = demo.scene();
    let asked = arguments.points.unwrap_or(scene.points);
    if !(demo::LEAST_ASKED..=demo::MOST_ASKED).contains(&asked) {
        let (least, most) = (grouped(demo::LEAST_ASKED), grouped(demo::MOST_ASKED));
        return Err(Stop::Use(format!("--points needs a count from {least} to {most}")));
    }
    let floor = stages.run(
        "making",
        &format!("making a floor of {} points", grouped(asked)),
        || scene.floor(asked),
    );
    let options = options(arguments, scene.boundary, scene.adaptive);
    solve_and_write(stages, scene.name, &floor, &options, arguments)
}

/// The last part of a path without its ending, as a title.
fn title(name: &str) -> &str {
    if name == files::STANDARD {
        return "floor";
    }
    let path = std::path::Path::new(name);
    path.file_stem().and_then(|stem| stem.to_str()).unwrap_or(name)
}

fn run() -> Result<(), Stop> {
    let words: Result<Vec<String>, _> = std::env::args_os().skip(1).map(OsString::into_string).collect();
    let words = words.map_err(|word| format!("`{}` is not valid UTF-8", word.to_string_lossy()))?;
    if words.is_empty() {
        files::print_error(arguments::HELP);
    }
    let (command, arguments) = arguments::parse(words)?;
    arguments.outputs().try_for_each(|name| files::check(name))?;
    if let Some(floor) = command.floor() {
        let mut outputs = [&arguments.svg, &arguments.angles].into_iter().flatten();
        outputs.try_for_each(|output| files::check_apart(output, floor))?;
    }
    let stages = &mut Stages::default();
    match command {
        Command::Help => Ok(files::print(arguments::HELP)?),
        Command::Version => Ok(files::print(concat!("godf ", env!("CARGO_PKG_VERSION"), "\n"))?),
        Command::Solve { floor } => {
            let given = read(stages, &floor)?;
            let options = options(&arguments, BoundaryMode::None, 0.0);
            solve_and_write(stages, title(&floor), &given, &options, &arguments)
        }
        Command::Refine { floor } => {
            let given = read(stages, &floor)?;
            refine_and_write(stages, title(&floor), &given, &arguments)
        }
        Command::Probe { floor, at } => {
            let given = read(stages, &floor)?;
            probe(&field(stages, &given, &arguments)?, given.floor(), at)
        }
        Command::Singularities { floor } => {
            let given = read(stages, &floor)?;
            list_singularities(&field(stages, &given, &arguments)?, given.floor())
        }
        Command::Demo(which) => demo(stages, which, &arguments),
    }
}

fn main() -> ExitCode {
    let (what, status) = match run() {
        Ok(()) => return ExitCode::SUCCESS,
        Err(Stop::Refused(what)) => (what, REFUSED),
        Err(Stop::Use(what)) => (what, WRONG_USE),
    };
    files::print_error(&format!("godf: {what}\n"));
    ExitCode::from(status)
}
