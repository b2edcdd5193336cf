"""What lies where in each archive: the file's name there, and the repository's file. One that ends in `.in` is a
template; `*` behind a name says that the file may be run."""

C = {
    "README.md": "bindings/c/package/README.md.in",
    "include/rolgunai.h": "bindings/c/rolgunai.h",
    "include/rolgunai_client.h": "bindings/c/rolgunai_client.h",
    "include/rolgunai_threads.h": "bindings/c/rolgunai_threads.h",
    "include/rolgunai.hpp": "bindings/cpp/rolgunai.hpp",
    "include/rolgunai_client.hpp": "bindings/cpp/rolgunai_client.hpp",
    "include/rolgunai_outbox.hpp": "bindings/cpp/rolgunai_outbox.hpp",
    "include/rolgunai_parts.hpp": "bindings/cpp/rolgunai_parts.hpp",
    "include/rolgunai_types.hpp": "bindings/cpp/rolgunai_types.hpp",
    "lib/pkgconfig/rolgunai.pc": "bindings/c/package/rolgunai.pc.in",
    "lib/cmake/rolgunai/rolgunaiConfig.cmake": "bindings/c/package/rolgunaiConfig.cmake.in",
    "lib/cmake/rolgunai/rolgunaiConfigVersion.cmake": "bindings/c/package/rolgunaiConfigVersion.cmake.in",
    "example/play.c": "bindings/c/play.c",
    "example/CMakeLists.txt": "bindings/c/package/CMakeLists.txt",
    "example/slider.jsonl": "examples/slider.jsonl",
    "doc/CALLS.md": "bindings/README.md",
    "doc/FORMATS.md": "docs/FORMATS.md",
    "doc/CHANGELOG.md": "CHANGELOG.md",
}

CARGO = {
    "README.md": "bindings/rust/cargo/rolgunai/README.md.in",
    "Cargo.toml": "bindings/rust/cargo/Cargo.toml",
    "rolgunai/README.md": "bindings/rust/cargo/rolgunai/README.md.in",
    "rolgunai/Cargo.toml": "bindings/rust/cargo/rolgunai/Cargo.toml.in",
    "rolgunai/LICENSE": "LICENSE",
    "rolgunai/src/lib.rs": "bindings/rust/rolgunai.rs",
    "rolgunai/src/client.rs": "bindings/rust/rolgunai/client.rs",
    "rolgunai/src/outbox.rs": "bindings/rust/rolgunai/outbox.rs",
    "rolgunai/src/parts.rs": "bindings/rust/rolgunai/parts.rs",
    "rolgunai/src/types.rs": "bindings/rust/rolgunai/types.rs",
    "rolgunai/src/ffi.rs": "bindings/rust/cargo/rolgunai/ffi.rs",
    "rolgunai/examples/slider.rs": "bindings/rust/cargo/rolgunai/examples/slider.rs",
    "rolgunai/tests/slider.rs": "bindings/rust/cargo/rolgunai/tests/slider.rs",
    "rolgunai/tests/slider.jsonl": "examples/slider.jsonl",
    "rolgunai/tests/slider.expected": "examples/slider.expected",
    "rolgunai-sys/README.md": "bindings/rust/cargo/rolgunai-sys/README.md",
    "rolgunai-sys/Cargo.toml": "bindings/rust/cargo/rolgunai-sys/Cargo.toml.in",
    "rolgunai-sys/build.rs": "bindings/rust/cargo/rolgunai-sys/build.rs",
    "rolgunai-sys/src/lib.rs": "bindings/rust/rolgunai/ffi.rs",
}

PROGRAMS = {
    "README.md": "tools/release_lib/pages/programs.md.in",
    "slider.jsonl": "examples/slider.jsonl",
    "FORMATS.md": "docs/FORMATS.md",
}
