"""Makes the manual page and the shells' completions of a program from what its help tells, so that they can't tell anything else."""
import re
import subprocess

# The examples of the manual page. Each option in them has to be one of help's.
EXAMPLES = [
    ("sicheck check client-1.jsonl client-2.jsonl", "Checks the logs of two clients together."),
    ("sicheck check --expect 1000 log.jsonl", "Ends with 0 only where 1000 transactions are committed, none is in doubt, no line is refused and nothing is found."),
    ("sicheck check --chances --expect-future 20 log.jsonl", "Tells at how many places each kind could have been found, and asks for 20 of one."),
    ("sicheck check --explain log.jsonl", "Tells the evidence behind each violation."),
    ("tests | sicheck check --every 1000 --new", "Reads a pipe while the tests run, and tells after each 1000 lines which violations came or are gone."),
]


class Help:
    """What `PROGRAM --help` and `PROGRAM check --help` tell: the commands, the options of the check, and the paragraphs behind them."""

    def __init__(self, program):
        self.version = told(program, "--version").split()[-1]
        top, check = told(program, "--help"), told(program, "check", "--help")
        self.about = top.split("\n", 1)[0].rstrip(".")
        self.commands = rows_of(top, "Commands")
        self.options = rows_of(check, "Options")
        # (help shows these in the usage line alone)
        if "--expect-KIND" in check:
            kinds = re.findall(r"^  (\w+) +\S", check[check.index("\n  own "):], re.M)
            self.options[-1:-1] = [(f"--expect-{kind} <N>", f"Expects N places at which {kind} could be found") for kind in kinds]
        self.top_options = [it for it in rows_of(top, "Options") if it not in self.options]
        self.usage = re.search(r"^Usage: (.*(?:\n +.*)*)$", check, re.M)[1].replace("\n" + len("Usage: ") * " ", "\n")
        self.evidence_usage = re.search(r"^Usage: (.*)$", told(program, "evidence", "--help"), re.M)[1]
        behind = check.split("\n\n", 3)[3]
        self.paragraphs = [it.strip("\n") for it in re.split(r"\n\n", behind)]
        if top.split("\n\n", 4)[4] != behind:
            raise SystemExit("manual: `--help` and `check --help` tell another text behind their options")


def told(program, *words):
    ran = subprocess.run([program, *words], env={}, stdin=subprocess.DEVNULL, capture_output=True, text=True, check=True)
    return ran.stdout


def rows_of(text, head):
    """Returns the rows below a heading of help, each with its words and what it says."""
    part = re.search(rf"^{head}:\n((?:  .*\n)+)", text, re.M)[1]
    return [re.match(r"\s+(.*?)  +(.*)", row).groups() for row in part.rstrip("\n").split("\n")]


def escaped(text):
    """Returns the text as a manual page has it: no sign of it is taken for a request, and a hyphen stays one."""
    text = text.replace("\\", "\\e").replace("-", "\\-")
    return "\n".join("\\&" + row if row[:1] in (".", "'") else row for row in text.split("\n"))


def headed(paragraph):
    """Returns the heading of a paragraph of help, by its first words."""
    heads = {"The input": "INPUT", "Stamps are": "STAMPS", "The output": "OUTPUT", "docs/LOGGING": "SEE ALSO"}
    head = next((heads[it] for it in heads if paragraph.startswith(it)), None)
    if head is None:
        raise SystemExit(f"manual: no heading for the paragraph of help that begins with: {paragraph[:40]}")
    return head


def words_of(rows):
    """Returns the long and short words of options."""
    return [word for words, _ in rows for word in re.findall(r"-{1,2}[a-z][a-z-]*", words)]


def examples(help_told):
    """Returns the rows of the manual page's examples."""
    rows = [".SH EXAMPLES"]
    for command, says in EXAMPLES:
        unknown = set(re.findall(r"--[a-z][a-z-]*", command)) - set(words_of(help_told.options))
        if unknown:
            raise SystemExit(f"manual: an example has an option that help doesn't tell: {' '.join(unknown)}")
        rows += [".TP", f"\\fB{escaped(command)}\\fP", escaped(says)]
    return rows


def manual(help_told, date):
    """Returns the manual page: help's own words, in the order of such pages."""
    rows = [f'.TH SICHECK 1 "{date}" "sicheck {help_told.version}" "User Commands"', ".SH NAME", f"sicheck \\- {escaped(help_told.about[0].lower() + help_told.about[1:])}"]
    rows += [".SH SYNOPSIS", ".nf", f"\\fB{escaped(help_told.usage)}\\fP", f"\\fB{escaped(help_told.evidence_usage)}\\fP", "\\fBsicheck \\-\\-help\\fP", "\\fBsicheck \\-\\-version\\fP", ".fi", ".SH COMMANDS"]
    for words, says in help_told.commands:
        rows += [".TP", f"\\fB{escaped(words)}\\fP", escaped(says)]
    rows += [".SH OPTIONS"]
    for words, says in [*help_told.options, *help_told.top_options]:
        rows += [".TP", f"\\fB{escaped(words)}\\fP", escaped(says)]
    for paragraph in help_told.paragraphs:
        body, status = paragraph, None
        if headed(paragraph) == "OUTPUT":
            body, _, status = paragraph.partition("\nThe status is")
        rows += [f".SH {headed(paragraph)}", ".nf", escaped(body), ".fi"]
        if status:
            rows += [".SH EXIT STATUS", ".nf", escaped("The status is" + status), ".fi", *examples(help_told)]
    return "\n".join(rows) + "\n"


def completion(help_told):
    """Returns the completion for bash: the commands, the options of a check, and else names of files, as of the log behind `evidence`."""
    commands = " ".join(words for words, _ in help_told.commands)
    options = " ".join(words_of(help_told.options))
    numbers = "|".join(re.findall(r"--[a-z-]+(?= <)", "\n".join(words for words, _ in help_told.options)))
    return f"""# Completion of sicheck {help_told.version} for bash.
_sicheck() {{
    local word=${{COMP_WORDS[COMP_CWORD]}} before=${{COMP_WORDS[COMP_CWORD - 1]}}
    COMPREPLY=()
    if [ "$COMP_CWORD" = 1 ]; then
        mapfile -t COMPREPLY < <(compgen -W "{commands} --help --version" -- "$word")
        return
    fi
    if [ "${{COMP_WORDS[1]}}" = evidence ]; then
        compopt -o filenames
        mapfile -t COMPREPLY < <(compgen -f -- "$word")
        return
    fi
    [ "${{COMP_WORDS[1]}}" = check ] || return
    case $before in
        {numbers}) return ;;
    esac
    case $word in
        -*) mapfile -t COMPREPLY < <(compgen -W "{options}" -- "$word") ;;
        *) compopt -o filenames; mapfile -t COMPREPLY < <(compgen -f -- "$word") ;;
    esac
}}
complete -F _sicheck sicheck
"""


def parts_of(words):
    """Returns the short word of an option, if it has one, its long word, and whether a value follows."""
    short, long = re.search(r"(?<![-\w])-([a-z])\b", words), re.search(r"--([a-z-]+)", words)
    return short and short[1], long[1], " <" in words


def quoted(text):
    """Returns the text between single quotes, for zsh and fish alike."""
    if "'" in text or "\\" in text:
        raise SystemExit(f"completion: a text with a quote: {text}")
    return f"'{text}'"


def completion_of_zsh(help_told):
    """Returns the completion for zsh: the commands, the options of a check with what help says of them, and else names of files."""
    specs = []
    for words, says in help_told.options:
        short, long, has_value = parts_of(words)
        says = says.replace("[", "").replace("]", "")
        if short:
            specs.append(quoted(f"(-{short} --{long})-{short}[{says}]"))
        specs.append(quoted(f"--{long}{'=' if has_value else ''}[{says}]{':number:' if has_value else ''}"))
    commands = " ".join(quoted(f"{words}:{says}") for words, says in help_told.commands)
    rows = "".join(f" \\\n        {it}" for it in [*specs, quoted("*:file:_files")])
    return f"""#compdef sicheck
# Completion of sicheck {help_told.version} for zsh.
_sicheck() {{
    local -a commands
    commands=({commands})
    if (( CURRENT == 2 )); then
        _describe command commands
        compadd -- --help --version
        return
    fi
    if [[ ${{words[2]}} == evidence ]]; then
        _files
        return
    fi
    [[ ${{words[2]}} == check ]] || return 1
    shift words
    (( CURRENT -= 1 ))
    _arguments{rows}
}}
# (zsh takes the whole file for the function when it is first asked)
if [[ ${{funcstack[1]}} == _sicheck ]]; then
    _sicheck "$@"
else
    compdef _sicheck sicheck
fi
"""


def completion_of_fish(help_told):
    """Returns the completion for fish, as that for zsh."""
    first, then = "-n __fish_use_subcommand", "-n '__fish_seen_subcommand_from check'"
    rows = [f"# Completion of sicheck {help_told.version} for fish.", "complete -c sicheck -f"]
    rows += [f"complete -c sicheck {first} -a {words} -d {quoted(says)}" for words, says in help_told.commands]
    rows += [f"complete -c sicheck {first} -l {parts_of(words)[1]} -d {quoted(says)}" for words, says in help_told.top_options]
    rows += [f"complete -c sicheck {then} -F", "complete -c sicheck -n '__fish_seen_subcommand_from evidence' -F"]
    for words, says in help_told.options:
        short, long, has_value = parts_of(words)
        when = "" if long == "help" else f" {then}"
        rows.append(f"complete -c sicheck{when}{f' -s {short}' if short else ''} -l {long}{' -x' if has_value else ''} -d {quoted(says)}")
    return "\n".join(rows) + "\n"
