//! The editor, run.
use arc_callers::editor::{Editor, written_by_two};
use arc_slice::error::RangeError;
use std::test::Fail;

/// Two authors, each with a part of the page.
#[test]
fn text_of_two(rt: HostRuntime) -> Result<(), Fail> {
    let Some(text) = written_by_two(&rt, rt.alloc(), "Grüß ", "dich") else {
        return Err("no memory".into());
    };
    assert!(rt; text.as_str() == "Grüß dich");
    Ok(())
}

#[test]
fn text_edited(rt: HostRuntime) -> Result<(), Fail> {
    let start = String::from_str(rt.alloc(), "Grüß")?;
    let Ok(mut editor) = Editor::open(rt.alloc(), start) else {
        return Err("no memory".into());
    };
    editor.write(" dich")?;
    assert!(rt; editor.cut_back(3) == Err(RangeError::NotBoundary));
    let page = editor.show();
    let Ok(part) = page.part(&rt, 0, 6) else {
        return Err("no part".into());
    };
    let Err(page) = page.edit() else {
        return Err("though a part lives".into());
    };
    assert!(rt; part.as_str() == "Grüß");
    drop(part);
    let Ok(mut editor) = page.edit() else {
        return Err("though no part lives".into());
    };
    assert!(rt; editor.cut_back(6) == Ok(()));
    editor.write(" Gott")?;
    let Ok(text) = editor.close() else {
        return Err("no string".into());
    };
    assert!(rt; text.as_str() == "Grüß Gott");
    Ok(())
}
