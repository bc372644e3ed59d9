"""The commands behind run.sh, build.sh, install.sh and examples/make_stream.py."""

import subprocess

import explain
import job
from limits import MOST_STREAM
from proving import TOP, built_program
from system import DONE, FAILED, NOT_READY, REFUSED, WRONG, Stop, Streams, reason, shown

RUN_HELP = """\
usage: ./run.sh [FILE]            run a job of readable lines; without FILE the reference job, examples/reference.txt
       ./run.sh -                 the same from standard input
       ./run.sh --stream FILE     run a job that is a stream of bytes already (document 01, "Job stream")
       ./run.sh --help

Standard output is what the program chainrun prints:

  P NUMBER WEIGHT    a panel unit and its base weight, at a draw
  Q FIGURE           a quarter's figure; an index of 100 is 1000000000
  C FIGURE           the figure of a year's close
  R NUMBER OFFSET    a refusal and the byte of the stream where the refused command begins; the job ends there

What is wrong or odd is said on standard error: for a refusal the line, the unit or place and the value.
Exit status: 0 done; 1 refused (R was printed); 2 wrong use or wrong input, nothing was run; 3 reading or writing
failed; 4 something that is needed is missing, or the program could not be built.
The first run proves and builds the program, some minutes; later ones take a fraction of a second.

A line is one of:

"""
MAKE_HELP = """\
usage: python3 examples/make_stream.py [FILE]     turn the lines of FILE, or of standard input, into the bytes of a job
                                                  stream on standard output

Exit status: 0 done; 2 a line is wrong, nothing is written; 3 reading or writing failed; 4 a unit is named by its
number, and the program that knows the panel could not be built. A line is one of:

"""


def lines_help():
    """The part of the job module's text that shows the lines."""
    return job.__doc__.split("\n\n", 1)[1]


def run_command(name, shown_name, arguments):
    """The status of a command; whatever stops it is said on standard error."""
    streams = Streams(shown_name)
    try:
        if name in ("build", "install"):
            import build_library

            return getattr(build_library, name)(streams, arguments)
        return {"run": run, "make_stream": make_stream}[name](streams, arguments)
    except Stop as stop:
        streams.say(str(stop))
        return stop.status
    except OSError as error:
        streams.say(f"{error.filename or 'the system'}: {reason(error)}")
        return FAILED
    except KeyboardInterrupt:
        streams.say("interrupted")
        return 130


class Job:
    """A job as it was read: a file, its commands and what is odd about its text."""

    def __init__(self, streams, path, as_stream=False):
        self.streams, self.path = streams, path
        self.label = "standard input" if path == "-" else shown(path, 200)
        data = streams.read(path)
        if as_stream:
            self.commands, self.warnings = job.commands_in(data), []
        else:
            self.commands, self.warnings = self.told(job.commands_of, data)
        self.stream = data if as_stream else None
        self.refused = None

    def say(self, text):
        self.streams.say(f"{self.label}: {text}")

    def told(self, function, *arguments):
        """What a function of `job` answers; bad lines are said, and stop the command."""
        try:
            return function(*arguments)
        except job.BadJob as bad:
            for message in bad.messages[:-1]:
                self.say(message)
            raise Stop(WRONG, f"{self.label}: {bad.messages[-1]}") from None

    def placed(self, program):
        """The units that are named by number get their places."""
        self.refused = self.told(job.place_units, self.commands, lambda stream: chainrun(program, stream))

    def octets(self):
        """The stream, with a word on what is odd."""
        stream = job.stream_of(self.commands)
        if self.stream is None or self.stream == stream:
            warnings = self.warnings + job.warnings_of(self.commands, self.refused)
        else:  # a stream that cannot be read to its end: the refusal says it
            warnings = ["this looks like a job of lines, which ./run.sh FILE runs"] if job.looks_like_lines(self.stream) else []
        for warning in job.few(warnings, "warnings"):
            self.say(f"warning: {warning}")
        return stream if self.stream is None else self.stream


# run.sh


def run(streams, arguments):
    """Reads a job, runs it, prints what the program prints, and explains a refusal."""
    path, as_stream, help_wanted = run_arguments(arguments)
    if help_wanted:
        streams.show((RUN_HELP + lines_help()).encode())
        return DONE
    if path is None and streams.has_unread_input():
        streams.say("warning: no file is named, so this is the reference job; ./run.sh - reads standard input")
    whole = Job(streams, path or str(TOP / "examples" / "reference.txt"), as_stream)
    program = built_program(streams.say)
    whole.placed(program)
    stream = whole.octets()
    printed = chainrun(program, stream)
    streams.show(printed)
    told = explain.explained(whole.commands, printed.decode("ascii"), len(stream))
    for line in told:
        whole.say(line)
    return REFUSED if told else DONE


def run_arguments(arguments):
    """The file (None: none is named), whether it is a stream, and whether help is asked for."""
    path, as_stream, options = None, False, True
    for word in arguments:
        if options and word == "--":
            options = False
        elif options and word in ("--help", "-h"):
            return None, False, True
        elif options and word == "--stream":
            as_stream = True
        elif options and word.startswith("-") and word != "-":
            raise Stop(WRONG, f"unknown option {shown(word)}; ./run.sh --help lists them")
        elif word == "":
            raise Stop(WRONG, "the name of the file is empty")
        elif path is not None:
            raise Stop(WRONG, f"one file at a time: {shown(path)} and {shown(word)} were given")
        else:
            path = word
    if path is None and as_stream:
        raise Stop(WRONG, "--stream wants a file, or - for standard input")
    return path, as_stream, False


def chainrun(program, stream):
    """What the program prints for a stream, or Stop: a run that failed prints nothing."""
    try:
        done = subprocess.run([str(program)], input=stream, capture_output=True)
    except OSError as error:
        raise Stop(NOT_READY, f"cannot start {program}: {reason(error)}") from None
    if done.stderr or done.returncode != 0:
        said = done.stderr.decode("utf-8", "replace").strip() or f"chainrun ended with status {done.returncode}"
        raise Stop(FAILED, said)
    return done.stdout


# make_stream.py


def make_stream(streams, arguments):
    """Writes the stream of a job, if every line is one."""
    if any(word in ("--help", "-h") for word in arguments):
        streams.show((MAKE_HELP + lines_help()).encode())
        return DONE
    if len(arguments) > 1 or any(word == "" or (word.startswith("-") and word != "-") for word in arguments):
        raise Stop(WRONG, "one file, or none; --help says more")
    whole = Job(streams, arguments[0] if arguments else "-")
    if any(command.unit is not None for command in whole.commands):
        whole.placed(built_program(streams.say))
        if whole.refused is not None:
            raise Stop(WRONG, f"{whole.label}: {unplaced(whole)}")
    streams.show(whole.octets())
    return DONE


def unplaced(whole):
    """Why a job whose units are named by number has no bytes."""
    refused, length = whole.refused, len(job.stream_of(whole.commands))
    if length > MOST_STREAM:
        return f"the stream would have {length:,} bytes, over {MOST_STREAM:,}, so it is refused and its units have no place"
    return f"line {refused.line}: this {refused.word} is refused, so the units below it have no place; ./run.sh says why"
