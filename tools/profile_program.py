"""Runs pprof_profile's `decode` and `encode` on byte lists, for compare_profiles.py and check_profiles.py.

The program is profile_answers.rattle, in a quick build of the crates' own sources (tools/quick_program). It reads
lists, each after its length in four bytes, and answers each: 1 and the bytes that `encode` writes of the profile, or 0
and the fault's text, after their length in eight.
"""
import pathlib
import subprocess
import sys
import tempfile

HERE = pathlib.Path(__file__).resolve().parent
sys.path.insert(0, str(HERE / "quick_program"))
from quick_program import build  # noqa: E402

NAME = "profile_answers"


def unframed(output):
    """The answers in what the program wrote."""
    at = 0
    while at + 9 <= len(output):
        end = at + 9 + int.from_bytes(output[at + 1 : at + 9], "little")
        text = output[at + 9 : end]
        yield text if output[at] else text.decode()
        at = end


def answers(rows):
    """For each byte list the bytes that are written of its profile, or the text of its fault."""
    framed = b"".join(len(row).to_bytes(4, "little") + row for row in rows)
    with tempfile.TemporaryDirectory() as folder:
        main = HERE / "quick_program" / f"{NAME}.rattle"
        program = build(NAME, {"main": main}, ["pprof_profile"], pathlib.Path(folder))
        done = subprocess.run([program], input=framed, capture_output=True)
    found = list(unframed(done.stdout))
    if len(found) != len(rows):
        sys.exit(f"{len(found)} of {len(rows)} byte lists have an answer:\n" + done.stderr.decode()[-3000:])
    return found
