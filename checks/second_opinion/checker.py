"""What the checker answers to its words: a report, or why there is none, and the status."""

import re
import sys

from .coherence import judge_permissions
from .permission_file import read_permission_file
from .probe_file import Refused, read_probe_file
from .report import judge_file, report_text

MOST_IMAGE_BYTES = 16_777_216
USAGE = Refused(2, "USAGE")
# The options of each command, each with the values that it takes; a flag takes none. How many workers
# there are changes no answer, and here there are none.
WORKERS = re.compile(r"\+?0*[1-8]")
OPTIONS = {"pass": {"--sources": None}, "coherence": {"--workers": WORKERS}}


def take_option(word, rest, values):
    """The option that a word names; its value is behind a `=` or the next word."""
    name, sign, value = word.partition("=")
    if name not in values:
        raise USAGE
    if values[name] is None:
        if sign:
            raise USAGE
        return name
    if not sign:
        value = next(rest, "")
    if not values[name].fullmatch(value):
        raise USAGE
    return name


def parse_words(words):
    """The command, its options and the two paths, or a refusal."""
    if not words or words[0] not in OPTIONS:
        raise USAGE
    values = OPTIONS[words[0]]
    options, paths = [], []
    only_paths = False
    rest = iter(words[1:])
    for word in rest:
        if only_paths or word == "-" or not word.startswith("-"):
            paths.append(word)
        elif word == "--":
            only_paths = True
        else:
            options.append(take_option(word, rest, values))
    if len(paths) != 2 or len(set(options)) != len(options):
        raise USAGE
    return words[0], options, paths


def read_file(path, name, most=-1):
    """The bytes of a file, or a refusal that names it."""
    try:
        with open(path, "rb") as file:
            return file.read(most)
    except (OSError, ValueError):
        raise Refused(5, f"READ FAULT {name}") from None


def judge_run(options, image_path, probes_path):
    """The report of a run beside its image."""
    image = read_file(image_path, "image", MOST_IMAGE_BYTES + 1)
    if len(image) > MOST_IMAGE_BYTES:
        raise Refused(3, "IMAGE TOO LONG")
    file = read_probe_file(read_file(probes_path, "probes"))
    failure, cases = judge_file(image, file)
    text = report_text(file.harts, failure, cases, "--sources" in options)
    return (0 if failure is None else 1), text


def judge_coherence(_options, permissions_path, probes_path):
    """The report of a permission file beside a run. It stands where other commands have the image."""
    permissions = read_permission_file(read_file(permissions_path, "image"))
    probes = read_probe_file(read_file(probes_path, "probes"))
    return judge_permissions(permissions, probes)


COMMANDS = {"pass": judge_run, "coherence": judge_coherence}


def run(words):
    """The status and the text for the words."""
    try:
        command, options, paths = parse_words(words)
        return COMMANDS[command](options, *paths)
    except Refused as refusal:
        return refusal.status, refusal.text + "\n"


def main():
    """Prints the text and gives the status."""
    status, text = run(sys.argv[1:])
    try:
        sys.stdout.write(text)
        sys.stdout.flush()
    except OSError:
        return 6
    return status

