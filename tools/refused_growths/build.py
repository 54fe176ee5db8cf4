"""Builds the program of the cases outside the repository, with growths.c linked into it."""
import pathlib
import sys

HERE = pathlib.Path(__file__).resolve().parent
sys.path.insert(0, str(HERE.parent / "quick_program"))
import quick_program  # noqa: E402

NAME = "refused_growths"
LIBRARIES = [
    "pprof_wire", "pprof_profile", "profile_rows", "name_counts", "ordered_rows", "folded_text", "profile_samples",
    "shared_pages", "call_tree", "flame_report", "op_book", "log_audit", "live_store", "live_report", "flame_answers",
    "flame_program", "anyhow", "bumpalo",
]


def build(folder):
    """The program, which leaves a copy of itself in the folder when it is first run."""
    sources = {file.stem: file for file in sorted((HERE / "cases").glob("*.rattle"))}
    return quick_program.build(NAME, sources, LIBRARIES, folder, [HERE / "growths.c"], ["write_varint"])
