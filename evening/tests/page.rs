//! The page: its order, its links, what is grey, and that nothing of a name is taken for more than a name.

mod folder;

use folder::*;
use std::collections::BTreeSet;
use std::path::Path;

/// The page of a folder.
fn page(input: &Path, jobs: &str) -> String {
    let [from, to] = both(input);
    let page = to.join("index.html");
    let (status, ..) =
        call([Path::new("-j"), Path::new(jobs), &from, &to, "--html".as_ref(), &page]);
    assert!(status < 2);
    assert!(names(&to).iter().all(|name| !name.to_string_lossy().starts_with('.')));
    std::fs::read_to_string(page).unwrap()
}

/// What stands between two texts, each time.
fn between<'a>(page: &'a str, start: &str, end: &str) -> Vec<&'a str> {
    page.split(start).skip(1).map(|rest| rest.split(end).next().unwrap()).collect()
}

/// Every link leads to an element that is there once.
fn links(page: &str) -> usize {
    let ids = between(page, " id=", ">");
    let ids: Vec<&str> = ids.into_iter().map(|id| id.split(' ').next().unwrap()).collect();
    let set: BTreeSet<&str> = ids.iter().copied().collect();
    assert_eq!(set.len(), ids.len(), "an id stands twice");
    let links = between(page, "href=#", ">");
    for link in &links {
        assert!(set.contains(link), "{link} leads nowhere");
    }
    links.len()
}

#[test]
fn order_links_and_greys() {
    let input = input("page");
    put(&input, "closed", &[0x06, 0x02, 0x0b]);
    put(&input, "cut", &[0x03]);
    put(&input, "grey", &[0x05, 0x03, 0x02, 0x0b]);
    put(&input, "leaves", &[0x06, 0x03, 0x0b]);
    std::fs::create_dir(input.join("missing")).unwrap();
    let page = page(&input, "2");
    assert_eq!(links(&page), 7);
    assert_eq!(
        between(&page, "<summary><b>", "</b>"),
        ["cut", "missing", "leaves", "closed", "grey"]
    );
    assert_eq!(
        between(&page, "<h2 id=", "</h2>"),
        ["refused>Refused", "unreadable>Unreadable", "leaves>Leaving", "closed>Closed"]
    );
    for part in [
        "<i>refused 14 at 1</i></summary>\n<p>The code ends within the operand at that place.</p>\n</details>",
        "<p>A walk of 1 step leaves from <a href=#f3-0>0</a>, none of fewer.",
        "<span id=f3-0 class=x>           @    0 : 06 03              JumpIfTrue [3] (jscd @ <s>3</s>) &larr; leaves</span>\n<span class=v>           @    2 : 0b                 Return</span>\n</pre>",
        "<small>3 bytes, 2 instructions</small></summary>\n<p>No walk leaves.</p>\n<pre>Bytecode length: 3\n",
        "JumpIfTrue [2] (jscd @ <a href=#f0-2>2</a>)\n<span id=f0-2>           @    2 : 0b                 Return</span>\n</pre>",
        "<p>No walk leaves, and none reaches 1 instruction.</p>",
        "\n<span class=u>           @    2 : 02                 LdaZero</span>\n<span id=f2-3>",
    ] {
        assert!(page.contains(part), "{part} is not in {page}");
    }
    assert_eq!(page.matches("<details open class=").count(), 3);
    assert_eq!(page.matches("<details").count(), page.matches("</details>").count());
}

/// The same page whatever the threads.
#[test]
fn the_same_for_any_threads() {
    let input = input("threads of a page");
    for k in 0..300 {
        let code: &[u8] = if k % 7 == 0 { &[0x05, 0x01] } else { SAMPLE };
        put(&input, k.to_string(), code);
    }
    let first = page(&input, "1");
    assert_eq!(first, page(&input, "5"));
    // Forty-three that leave are too many to be open.
    assert_eq!(
        (first.matches("<details").count(), first.matches("<details open").count()),
        (300, 0)
    );
    links(&first);
}

/// Entries of a switch: file_cases has one in its data.
#[test]
fn entries() {
    let input = input("page of a switch");
    let data = crates("file_cases/data");
    for file in TABLE {
        std::fs::copy(data.join(file), input.join("table").join(file)).unwrap();
    }
    let files = ["switch_objects.bin", "switch_slots.bin", "switch.bin"];
    put_files(
        &input.join("switch"),
        &STORE,
        &files.map(|file| std::fs::read(data.join(file)).unwrap()),
    );
    let page = page(&input, "1");
    assert!(page.contains("{ 5: @<a href=#f0-4>4</a> }\n<span id=f0-4>"), "{page}");
    links(&page);
}

#[test]
fn names_are_names() {
    let input = input("page of names");
    let odd: [(&[u8], &str); 4] = [
        (b"<script>alert(1)<", "&lt;script&gt;alert(1)&lt;"),
        (b"&amp;", "&amp;amp;"),
        (b"' onclick='x", "&#39; onclick=&#39;x"),
        (b"\xff\n\"", "&quot;\\xff\\n\\&quot;&quot;"),
    ];
    for (name, _) in odd {
        put(&input, bytes(name), SAMPLE);
    }
    std::fs::create_dir(input.join("no <b>")).unwrap();
    let page = page(&input, "2");
    for (_, shown) in odd {
        assert!(page.contains(&format!("<summary><b>{shown}</b>")), "{shown} is not in {page}");
    }
    assert!(page.contains("no &lt;b&gt;/objects.bin: No such file or directory</p>"));
    assert!(!page.contains("<script") && page.contains("default-src 'none'"));
    assert!(!page.contains("http:") && !page.contains("https:") && !page.contains("src="));
}
