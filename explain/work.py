"""The work that the program does before it runs or writes anything, in its order: `first_refusal(words)` gives the first
Refusal on the way, or None. A file that can't be read again raises Unreadable."""

from explain import files
from explain.document import Document
from explain.image import read_image
from explain.log import read_log
from explain.plan import read_names, read_plan, written_names
from explain.refusal import Broken, Refusal
from explain.rules import READERS, SCRIPT
from explain.script import read_script
from explain.shown import shown
from explain.source import read_source
from explain.strata import read_strata
from explain.tail import read_tail
from explain.words import read_words


def first_refusal(words):
    try:
        command = read_words(words)
        WORK.get(command.name, play)(command)
    except Refusal as refusal:
        return refusal
    return None


# ---------------------------------------------------------------- refusing


def sentences(name, broken, rule):
    """What is wrong with the file of this name, and what to do."""
    found = "%s%s: %s." % (shown(name), ", " + broken.place if broken.place else "", broken.found)
    to_do = rule.to_do if broken.to_do is None else broken.to_do
    return "%s %s" % (found, to_do) if to_do else found


def check(reader, name, sphere, read, *arguments):
    """Hands the arguments to what reads such a file; what is broken becomes the program's refusal."""
    status, place, rules = READERS[reader]
    try:
        return read(*arguments)
    except Broken as broken:
        before = () if sphere is None else (sphere,)
        rule = rules[[*before, *broken.numbers][place]]
        line = " ".join(map(str, ("refused", reader, *before, *broken.numbers)))
        raise Refusal(status, line, sentences(name, broken, rule)) from None


def check_script(name, data):
    try:
        read_script(data)
    except Broken as broken:
        raise Refusal(5, "refused script %d" % broken.numbers, sentences(name, broken, SCRIPT)) from None


def check_writable(names):
    for name in names:
        reason = files.unwritable(name)
        if reason:
            raise files.fault(name, reason)


def check_written(given):
    """The file that a command writes, if it writes one."""
    check_writable([given["NAME"]] if "NAME" in given else [])


# ---------------------------------------------------------------- the commands


def play(command):
    """walk, interval, watch, who, when and strata."""
    given = command.operands
    image, log = files.read(given["IMAGE"]), files.read(given["LOG"], is_log=True)
    check("image", given["IMAGE"], 0, read_image, image, given["MEMORY"])
    check("log", given["LOG"], 0, read_log, log)
    check_written(given)


def read_only_log(command):
    """inspect and migrate."""
    given = command.operands
    check("log", given["LOG"], 0, read_log, files.read(given["LOG"], is_log=True))
    check_written(given)


def play_tail(command):
    name = command.operands["NAME"]
    check("log", name, 0, read_tail, files.read(name))


def assemble(command):
    name = command.operands["SOURCE"]
    check("source", name, None, read_source, files.read(name))
    check_written(command.operands)


def make(command):
    check_written(command.operands)


def drill(command):
    """Reads and writes nothing."""


def run(command):
    name = command.operands["PLAN"]
    document = check("plan", name, None, plan_document, name, files.read(name))
    contents = {path: read_named(name, document, path, file) for path, file in read_names(document)}
    for path, file in read_names(document):
        if path[-1] == "image":
            i = path[1]
            check("image", file, i, read_image, contents[path], document.top["sphere"][i]["memory"])
    for path, file in read_names(document):
        if path[-1] == "log":
            check("log", file, path[1], read_log, contents[path])
        if path[-1] == "strata":
            check_strata(document, path, contents)
    if "script" in document.top:
        check_script(document.top["script"], contents[("script",)])
    check_writable(file for _, file in written_names(document))


def check_strata(document, path, contents):
    """The strata of a sphere: their fields, and then whether they can be replayed on its image."""
    from explain.parallel import check_parallel

    sphere, i = document.top["sphere"][path[1]], path[1]
    check("strata", sphere["strata"], i, read_strata, contents[path])
    check("strata", sphere["strata"], i, check_parallel, contents[("sphere", i, "image")], sphere["memory"], contents[path])


def plan_document(name, data):
    document = Document(data)
    read_plan(name, document)
    return document


def read_named(plan, document, path, name):
    """The bytes of a file that the plan names."""
    try:
        return files.read(name, is_log=path[-1] == "log")
    except Refusal as refusal:
        raise files.absent(name, plan) if refusal.status == 10 else refusal from None


WORK = {"run": run, "inspect": read_only_log, "migrate": read_only_log, "tail": play_tail, "asm": assemble, "make": make,
        "drill": drill}
