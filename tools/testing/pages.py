"""pages.py: tests of docs/try_pages.py itself; test_tools.py runs them."""
import os
import sys

TOP = os.path.dirname(os.path.dirname(os.path.dirname(os.path.abspath(__file__))))
sys.path.insert(0, os.path.join(TOP, "docs"))
import try_pages  # noqa: E402


def wrong_of(text, scratch, environment=None):
    """What differs in a page with this text."""
    shown, stray = try_pages.shown_in(text)
    return [line for command in shown for line in try_pages.differences("page", command, scratch, environment or dict(os.environ))] + stray


def statuses_are_compared(folder, program, settings):
    """A command that ends with another status than the page says is found, also if it prints what is shown; so are other lines. Date and
    time before a line, and the number of evaluations, may differ."""
    assert wrong_of("    $ echo a\n    a\n", folder) == []
    assert wrong_of("    $ echo a; false\n    a\n", folder) == ["page:1: $ echo a; false", "  ends with 1, not 0"]
    assert wrong_of("<!-- exits: 3 -->\n    $ echo a; exit 3\n    a\n    $ true\n", folder) == []
    assert wrong_of("<!-- exits: 3 -->\n    $ true\n", folder) == ["page:2: $ true", "  ends with 0, not 3"]
    assert wrong_of("<!-- exits: 3 -->\n    $ exit 3\n    $ exit 3\n", folder)[1:] == ["  ends with 3, not 0"]
    assert "  +b" in wrong_of("    $ echo b\n    a\n", folder)
    assert wrong_of("    $ echo '2026-12-01 09:46:00+0000 turn 1 evals=7'\n    turn 1 evals=9\n", folder) == []


def first_command_is_tried(folder, program, settings):
    """README's first command is run as it stands there; the test puts a `rt` on the path that prints what the page shows, or else."""
    with open(os.path.join(TOP, "README.md")) as page:
        first = try_pages.first_command(page.read())
    assert first.command.startswith("(cd crates/historian && rt try -- pack ") and first.output.startswith("kept,0,0\n"), first.command
    os.makedirs(os.path.join(folder, "crates/historian"))
    os.makedirs(os.path.join(folder, "examples"))
    os.makedirs(os.path.join(folder, "bin"))
    open(os.path.join(folder, "examples/four_lines.csv"), "w").close()
    environment = dict(os.environ, PATH=os.path.join(folder, "bin") + os.pathsep + os.environ["PATH"])
    for text, good in ((first.output, True), ("kept,0,0\n", False)):
        with open(os.path.join(folder, "bin/rt"), "w") as out:
            out.write("#!/bin/sh\n[ \"$1\" = try ] || exit 9\necho hint >&2\ncat <<'END'\n%sEND\n" % text)
        os.chmod(os.path.join(folder, "bin/rt"), 0o755)
        assert (try_pages.differences("README.md", first, folder, environment) == []) == good, text


def packages_are_named(folder, program, settings):
    """A command that needs a package knows it by the comment before it; only commands that begin with that word need it. It is tried where
    the package is."""
    shown, stray = try_pages.shown_in("    $ board.py\n<!-- board.py needs: libjs-dygraphs -->\n    $ echo board.py\n"
                                      "    $ board.py x\n    $ board.py\n")
    assert [command.package for command in shown] == [None, None, "libjs-dygraphs", "libjs-dygraphs"] and not stray
    place = os.path.join(folder, "dygraph.min.js")
    packages, try_pages.PACKAGES = try_pages.PACKAGES, {"libjs-dygraphs": place}
    try:
        assert [command.lacks_package() for command in shown] == [False, False, True, True]
        open(place, "w").close()
        assert not any(command.lacks_package() for command in shown)
    finally:
        try_pages.PACKAGES = packages


CASES = [statuses_are_compared, first_command_is_tried, packages_are_named]
