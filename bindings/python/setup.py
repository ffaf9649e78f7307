"""Builds the extension with the static library for C, which pkg-config finds."""

from __future__ import annotations

import subprocess
from glob import glob
from pathlib import Path

from setuptools import Extension, setup


def ask(*words: str) -> str:
    """What pkg-config answers about the library."""
    try:
        run = subprocess.run(["pkg-config", *words, "gix_date"], check=True, stdout=subprocess.PIPE, text=True)
    except (OSError, subprocess.CalledProcessError) as error:
        raise SystemExit(
            "pkg-config finds no gix_date: run ./install_c_library --prefix DIR, and set PKG_CONFIG_PATH to DIR/lib/pkgconfig"
        ) from error
    return run.stdout.strip()


def extension() -> Extension:
    """The extension, by the stable ABI of Python 3.10, the first that has calls by arrays of arguments, and the UTF-8 of a str."""
    library = str(Path(ask("--variable=libdir")) / "libgix_date.a")
    return Extension(
        "gix_date._library",
        sources=sorted(glob("src/c/*.c")),
        depends=[library, "src/c/library.h"],
        define_macros=[("Py_LIMITED_API", "0x030a0000")],
        extra_compile_args=["-std=c99", "-O2", "-fvisibility=hidden", *ask("--cflags", "--keep-system-cflags").split()],
        extra_objects=[library],
        extra_link_args=["-Wl,--exclude-libs,ALL"],
        py_limited_api=True,
    )


setup(ext_modules=[extension()], options={"bdist_wheel": {"py_limited_api": "cp310"}})
