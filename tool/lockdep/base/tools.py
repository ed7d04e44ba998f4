"""Other programs that are asked for something: addr2line, c++filt, dot, and the recorder's reader of debug information. No shell is run."""
from __future__ import annotations

# How many seconds of processor time addr2line and c++filt may take, and how many dot may: so what is said doesn't hang on how busy the machine is.
PATIENCE = 60
PATIENCE_WITH_DOT = 30


def other_answer(words: list[str | bytes], given: bytes, patience: int = PATIENCE) -> bytes | None:
    """What a program that may be missing writes for these bytes; None if it is missing, fails, or takes too long."""
    import resource
    import shutil
    import subprocess
    if not shutil.which(words[0]):
        return None
    soft, hard = resource.getrlimit(resource.RLIMIT_CPU)
    least = min([limit for limit in (soft, hard, patience) if limit != resource.RLIM_INFINITY])
    try:
        done = subprocess.run(words, input=given, stdout=subprocess.PIPE, stderr=subprocess.DEVNULL,
                              preexec_fn=lambda: resource.setrlimit(resource.RLIMIT_CPU, (least, hard)))
    except (OSError, ValueError):
        return None
    return done.stdout if done.returncode == 0 else None
