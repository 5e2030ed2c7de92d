//! host/c/example.c and example.cpp, compiled with include/bannelgo.h and linked with the proved library, exit with 0 where every answer
//! is the paper's. Where one field of an answer is made wrong they exit with 1.

mod programs;

use programs::{
    gets_the_papers_answers, repository, run, said, scratch, succeed, Language, C, CPP,
};
use std::path::{Path, PathBuf};
use std::process::Command;

/// The compiler on the example, with the repository's header.
fn compiling(language: &Language, standard: Option<&str>) -> Command {
    let mut compiler = language.compiler(standard);
    compiler.arg("-I").arg(repository().join("include"));
    compiler.arg(language.source());
    compiler
}

/// Compiles and links the example in a scratch folder of that name; a header may be put in front of it.
fn compiled(language: &Language, folder: &str, in_front: Option<&str>) -> PathBuf {
    let program = scratch(folder).join("program");
    let mut compiler = compiling(language, None);
    if let Some(header) = in_front {
        compiler.arg("-include").arg(repository().join(header));
    }
    compiler.arg(Path::new(env!("BANNELGO_LIB_FOLDER")).join("libbannelgo.a"));
    compiler.arg("-o").arg(&program);
    succeed(&mut compiler);
    program
}

#[test]
fn the_c_program_gets_the_papers_answers() {
    gets_the_papers_answers(&compiled(&C, "c", None));
}

#[test]
fn the_cpp_program_gets_the_papers_answers() {
    gets_the_papers_answers(&compiled(&CPP, "cpp", None));
}

#[test]
fn the_examples_compile_by_every_standard() {
    for language in [C, CPP] {
        for standard in language.standards {
            succeed(compiling(&language, Some(standard)).arg("-fsyntax-only"));
        }
    }
}

#[test]
fn the_c_program_tells_a_wrong_answer() {
    tells_a_wrong_answer(&compiled(&C, "wrong_c", Some("host/c/wrong.h")));
}

#[test]
fn the_cpp_program_tells_a_wrong_answer() {
    tells_a_wrong_answer(&compiled(&CPP, "wrong_cpp", Some("host/c/wrong.h")));
}

fn tells_a_wrong_answer(program: &Path) {
    let exits_with = |status, call: &str, field: usize| {
        let mut command = Command::new(program);
        command.env("WRONG_CALL", call);
        command.env("WRONG_FIELD", field.to_string());
        let output = run(&mut command);
        let about = format!("{call}, field {field}: {}", said(&output));
        assert_eq!(output.status.code(), Some(status), "{about}");
    };
    exits_with(0, "none", 0);
    exits_with(1, "check_image", 0);
    exits_with(1, "plain_reading", 0);
    for field in ["row_rule", "row_depth", "row_start", "row_length"] {
        exits_with(1, field, 0);
    }
    for call in ["open", "edit", "read", "look_up", "list"] {
        for field in 0..7 {
            exits_with(1, call, field);
        }
    }
}

const README: &str = include_str!("../../../README.md");

/// What stands between a line of three backticks with this name and the next three.
fn fenced<'d>(document: &'d str, name: &str) -> &'d str {
    let opening = format!("```{name}\n");
    let (_, behind) = document.split_once(&opening).expect("the document has one");
    behind.split_once("```").expect("it is closed").0
}

/// The README's C lines compile, warnings as errors, and say what the library answers.
#[test]
fn the_readmes_c_runs() {
    let image: Vec<String> = bannelgo_development::samples::D2
        .iter()
        .map(u8::to_string)
        .collect();
    let program = format!(
        "#include \"bannelgo.h\"\n#include <stdio.h>\n\
         static const uint8_t image[] = {{{}}};\nenum {{ image_length = sizeof image }};\n\
         int main(void) {{\n{}return 0;\n}}\n",
        image.join(", "),
        fenced(README, "c")
    );
    let folder = scratch("readme");
    let (source, executable) = (folder.join("readme.c"), folder.join("readme"));
    std::fs::write(&source, program).expect("the folder can be written to");
    let mut compiler = C.compiler(None);
    compiler.arg("-I").arg(repository().join("include"));
    compiler.arg(&source);
    compiler.arg(Path::new(env!("BANNELGO_LIB_FOLDER")).join("libbannelgo.a"));
    succeed(compiler.arg("-o").arg(&executable));
    assert_eq!(succeed(&mut Command::new(executable)), "2 bytes matched\n");
}
