//! `gvdb merge`: the values of two files in one, and no value lost unsaid.

use crate::args::Args;
use crate::both::Side;
use crate::content::{self, Content, Place};
use crate::decide::Decisions;
use crate::failure::{name, Failure};
use crate::filter;
use crate::form;
use crate::input::Input;
use crate::lay::{lay, Layout};
use crate::merging::Merging;
use crate::order::Order;
use crate::out::Out;
use crate::replace;
use crate::report::{End, Heading, Listener, Report};
use crate::source::Source;
use crate::target::{self, Pending, Target};
use crate::text;
use gvdb::{ByteOrder, Form, WriteOptions, MAX_FILTER_WORDS};
use std::collections::BTreeSet;
use std::ffi::OsStr;
use std::fs;

pub fn run(args: &Args, out: &mut Out) -> Result<u8, Failure> {
    let job = Job::of(args)?;
    let mut places = Places::find(args, &job)?;
    let mut input = places.begin(args, &job)?;
    let files = Files::read(args, &mut input)?;
    let order = files.byte_order()?;
    let options = WriteOptions { form: job.form.unwrap_or(files.own.form), filter_words: job.filter_words };
    let [base, own, other] = files.contents()?;
    let decisions = job.decisions(args, &mut input)?;
    let old = if places.out_is_input(args) { None } else { replace::old(&places.out, job.replace)? };
    let old_content = old.as_ref().map(replace::read).transpose()?.unwrap_or_default();

    let mut report = Report::new(job.heading(args, order, options));
    let merged = Merging::new(&decisions, job.keep, &mut report).tables(&base, &own, &other);
    report.notes = decisions.idle().into_iter().chain(places.old_report.clone()).chain(files.notes(options, &places.out)).collect();
    report.values = content::values(&merged).len();
    report.unmade = unmade([&own, &other], &merged, job.separator);
    report.lost = old.as_ref().map_or(Vec::new(), |old| replace::lost(old, &old_content, &merged, order));

    let mut error = Out::error();
    let told = if places.out.is_standard() { &mut error } else { out };
    let children = Order::of(&files.own, &own)?.then(Order::of(&files.other, &other)?);
    let layout = Layout { separator: job.separator, order, options, children: &children };
    carry_out(&job, &places, &report, told, |name| job.lay(name, &report, &merged, layout))
}

/// The containers that cannot be in OUT. One that the keys below it made in its own file goes with them.
fn unmade(files: [&Content; 2], merged: &Content, separator: Option<u8>) -> Vec<Place> {
    let before: BTreeSet<Place> = files.into_iter().flat_map(|file| content::unmade(file, separator)).collect();
    content::unmade(merged, separator).into_iter().filter(|place| before.contains(place)).collect()
}

/// The options.
struct Job {
    keep: Option<Side>,
    separator: Option<u8>,
    /// The form of OUT; none is that of OWN.
    form: Option<Form>,
    filter_words: u32,
    json: bool,
    replace: bool,
    dry_run: bool,
    without_containers: bool,
    /// Whether a file has the report with every byte.
    report_file: bool,
    /// Whether standard output has it so.
    whole: bool,
}

impl Job {
    fn of(args: &Args) -> Result<Job, Failure> {
        let keep = args.value("--keep").map(OsStr::as_encoded_bytes);
        let report = args.value("--report");
        if args.flag("--dry-run") && report.is_some_and(|report| report != "-") {
            return Err(Failure::usage("merge: --dry-run writes nothing, so it takes no --report but - (see gvdb merge --help)"));
        }
        Ok(Job {
            keep: match keep.map(Side::named) {
                Some(None) => return Err(Failure::usage("merge: --keep is own or other (see gvdb merge --help)")),
                keep => keep.flatten(),
            },
            separator: content::separator(args.value("--separator"))?,
            form: form::named(args, Some(Form::Plain))?,
            filter_words: filter::words(args)?,
            json: args.flag("--json"),
            replace: args.flag("--replace"),
            dry_run: args.flag("--dry-run"),
            without_containers: args.flag("--without-containers"),
            report_file: report.is_some_and(|report| report != "-"),
            whole: report.is_some_and(|report| report == "-"),
        })
    }

    fn decisions(&self, args: &Args, input: &mut Input) -> Result<Decisions, Failure> {
        let Some(word) = args.value("--decide") else { return Ok(Decisions::none()) };
        let (name, lines) = input.text(word)?;
        Decisions::parse(name, &lines, self.separator)
    }

    fn heading(&self, args: &Args, order: ByteOrder, options: WriteOptions) -> Heading {
        let [own, other] = [0, 1].map(|at| name(&args.words()[at]));
        let [base, out] = ["--base", "-o"].map(|option| args.value(option).map(name));
        Heading { own, other, base, out: out.unwrap_or_default(), keep: self.keep, separator: self.separator, order, options }
    }

    /// OUT's bytes, unless the merge is refused.
    fn lay(&self, name: &str, report: &Report, merged: &Content, layout: Layout) -> Result<Vec<u8>, Failure> {
        let conflicts = report.open_conflicts();
        if conflicts > 0 {
            let count = text::count(conflicts, "conflict");
            return Err(Failure::no(format!("{name}: {count}, nothing is written; --keep own, --keep other or --decide FILE decides")));
        }
        if !report.unmade.is_empty() && !self.without_containers {
            let count = text::count(report.unmade.len(), "container");
            return Err(Failure::no(format!("{name}: {count} cannot be laid, nothing is written; --without-containers leaves out what the notes name")));
        }
        lay(name, merged, layout, &|path, key| format!("{name}: key {}", text::cut(&text::path(path, key))))
    }

    /// Standard output, or a file.
    fn listener<'o>(&self, out: Option<&'o Out>) -> Listener<'o> {
        let whole = out.is_none() || self.whole;
        Listener { json: self.json, dropped_whole: whole || !self.report_file, whole, out }
    }
}

/// Tells the report and puts OUT in its place. Nothing is merged whose report could not be told, and nothing says that it is before it is in place: the last
/// line, or the last fields, come behind the last step.
fn carry_out(job: &Job, places: &Places, report: &Report, out: &mut Out, lay: impl Fn(&str) -> Result<Vec<u8>, Failure>) -> Result<u8, Failure> {
    let name = &places.out.name;
    let image = lay(name).and_then(|bytes| if job.dry_run { Ok(None) } else { places.out.write(bytes).map(Some) });
    let text = || report.body(job.listener(None)).into_bytes();
    let file = places.report.as_ref().map(|target| target.write(text())).transpose();
    out.tell_before(name, &report.body(job.listener(Some(out))))?;

    let (file, done) = put(file, image);
    let end = match &done {
        Ok(()) if job.dry_run => End::WouldBe,
        Ok(()) => End::Merged,
        Err(_) if report.open_conflicts() > 0 => End::Refused(None),
        Err(failure) => End::Refused(Some(&failure.line)),
    };
    let added = file.map_or(Ok(()), |mut file| file.add(report.tail(&end, job.listener(None)).as_bytes()));
    let told = out.tell(&report.tail(&end, job.listener(Some(out))));
    done?;
    let written = format!("{name} is {}written, but the end of its report is not", if job.dry_run { "not " } else { "" });
    added.map_err(|error| Failure::usage(format!("--report: {error}")).so(&written))?;
    told.map_err(|failure| failure.so(&written))?;
    Ok(0)
}

/// The last steps: the report, then OUT. The report is written for a refused merge too, and is handed back for its last line; without it nothing is merged.
fn put<'t>(file: Result<Option<Pending<'t>>, Failure>, image: Result<Option<Pending<'t>>, Failure>) -> (Option<Pending<'t>>, Result<(), Failure>) {
    let put = |pending: Option<Pending<'t>>| match pending {
        Some(mut pending) => pending.put().map(|()| Some(pending)),
        None => Ok(None),
    };
    match file.and_then(put) {
        Ok(file) => (file, image.and_then(put).map(|_| ())),
        Err(failure) => (None, Err(failure)),
    }
}

/// Where the merge writes.
struct Places {
    out: Target,
    report: Option<Target>,
    /// The report that is replaced, for a note.
    old_report: Option<String>,
}

impl Places {
    fn find(args: &Args, job: &Job) -> Result<Places, Failure> {
        let word = args.needed("-o")?;
        let out = Target::find(word)?;
        if job.whole && out.is_standard() {
            return Err(Failure::usage("merge: OUT and the report cannot both be standard output"));
        }
        let Some(report_word) = args.value("--report").filter(|_| job.report_file) else { return Ok(Places { out, report: None, old_report: None }) };
        let report = Target::find(report_word)?;
        match read_words(args).chain([word]).any(|file| report.is_at(file)) {
            true => Err(Failure::usage(format!("merge: --report {} is one of the files merged", name(report_word)))),
            false => Ok(Places { out, report: Some(report), old_report: None }),
        }
    }

    /// Waits for the turn to write, and sees what is there. What comes through a pipe may rest on what is there, so then that is looked at first.
    fn begin(&mut self, args: &Args, job: &Job) -> Result<Input, Failure> {
        let piped = read_words(args).any(|word| word == "-");
        if piped {
            self.look(job)?;
        }
        let input = Input::of(read_words(args))?;
        if !job.dry_run {
            target::take_turns([Some(&mut self.out), self.report.as_mut()].into_iter().flatten())?;
        }
        if !piped {
            self.look(job)?;
        }
        Ok(input)
    }

    fn look(&mut self, job: &Job) -> Result<(), Failure> {
        self.out.look()?;
        let Some(report) = &mut self.report else { return Ok(()) };
        report.look()?;
        self.old_report = replace::report(report, job.replace)?;
        Ok(())
    }

    /// Whether OUT is one of the files that are merged: then the merge names what it loses.
    fn out_is_input(&self, args: &Args) -> bool {
        args.words().iter().any(|file| self.out.is_at(file))
    }
}

/// The words that name files to be read.
fn read_words(args: &Args) -> impl Iterator<Item = &OsStr> {
    args.words().iter().map(|word| word.as_os_str()).chain(args.value("--base")).chain(args.value("--decide"))
}

/// The files that are merged.
struct Files {
    own: Source,
    other: Source,
    /// An empty file is a base that holds nothing, as git has it.
    base: Option<Source>,
}

impl Files {
    fn read(args: &Args, input: &mut Input) -> Result<Files, Failure> {
        let empty = |word: &OsStr| word != "-" && fs::metadata(word).is_ok_and(|found| found.is_file() && found.len() == 0);
        Ok(Files {
            own: input.source(&args.words()[0])?,
            other: input.source(&args.words()[1])?,
            base: args.value("--base").filter(|word| !empty(word)).map(|word| input.source(word)).transpose()?,
        })
    }

    /// The contents of base, own and other.
    fn contents(&self) -> Result<[Content<'_>; 3], Failure> {
        let base = self.base.as_ref().map(content::read).transpose()?.unwrap_or_default();
        Ok([base, content::read(&self.own)?, content::read(&self.other)?])
    }

    /// What is said of each file in GLib's form, where OUT is to be in the other, and of each with a filter, where OUT is to have none.
    fn notes(&self, options: WriteOptions, out: &Target) -> Vec<String> {
        let turned = |source: &Source| {
            let said = || format!("{} is in the signed form (GLib's), {} in the plain one: --form signed keeps it", source.name, out.name);
            (options.form == Form::Plain && source.form == Form::Signed).then(said)
        };
        let unfiltered = |source: &Source| {
            let words = source.root().map_or(0, |root| root.bloom_words());
            let (has, most) = (text::count(words, "filter word"), words.min(MAX_FILTER_WORDS));
            (options.filter_words == 0 && words > 0).then(|| format!("{} has {has}, {} none: --bloom {most} lays some", source.name, out.name))
        };
        [&self.own, &self.other].into_iter().flat_map(|source| [turned(source), unfiltered(source)]).flatten().collect()
    }

    /// The byte order of the values, which all files have to share: nobody here knows how to turn a value around.
    fn byte_order(&self) -> Result<ByteOrder, Failure> {
        let order = |source: &Source| source.header.order;
        match [Some(&self.other), self.base.as_ref()].into_iter().flatten().find(|source| order(source) != order(&self.own)) {
            None => Ok(order(&self.own)),
            Some(unlike) => Err(Failure::no(format!(
                "{} has {}-endian values, {} {}-endian ones: they cannot stand in one file, nothing is written",
                self.own.name,
                order(&self.own).name(),
                unlike.name,
                order(unlike).name()
            ))),
        }
    }
}
