//! Generated jobs, good and bad: the command's answer is the second implementation's, byte by byte, and every run can be told and printed.
use command::{command, Said};
use twin::generate::job_text;

/// The command on a job that stands in a file.
fn said(words: &[&str], file: &str) -> Said {
    let words: Vec<String> = words
        .iter()
        .chain([&file])
        .map(|word| word.to_string())
        .collect();
    command(&words, &mut |_| ())
}

#[test]
fn the_command_answers_as_the_second_implementation() {
    twin::with_big_stack(|| {
        let file = std::env::temp_dir().join(format!("marshtrundle-{}.job", std::process::id()));
        let file = file.to_str().expect("a name");
        let (mut same, mut texts, mut answers) = (0, 0, [0; 32]);
        for index in 0..300 {
            let text = job_text(26, index);
            std::fs::write(file, &text).expect("a file");
            let wanted = String::from_utf8(twin::job(&text)).expect("text");
            let run = said(&["run"], file);
            // What breaks only the limits of the job program is good here: a job, or a text whose first bad line comes later.
            let line = |answer: &str| {
                answer
                    .split('\t')
                    .nth(2)
                    .and_then(|line| line.parse::<u32>().ok())
            };
            if wanted.starts_with("answer\t9\t")
                && (run.status != 9 || line(&run.output) > line(&wanted))
            {
                texts += 1;
                continue;
            }
            assert_eq!(run.output, wanted, "job {index}");
            same += 1;
            answers[usize::from(run.status)] += 1;
            for words in [
                &["explain"][..],
                &["explain", "--html"],
                &["explain", "--all", "--length", "50"],
            ] {
                let told = said(words, file);
                assert_eq!(
                    told.status, run.status,
                    "job {index}, {words:?}: {}",
                    told.error
                );
            }
            for words in [
                &["print"][..],
                &["print", "--entries", "--full"],
                &["print", "--graph", "table"],
                &["print", "--graph", "term"],
            ] {
                let shown = said(words, file);
                assert_eq!(
                    shown.status,
                    if run.status == 9 { 9 } else { 0 },
                    "job {index}, {words:?}"
                );
            }
            let refused = said(&["check"], file).status;
            let is_refusal = !matches!(run.status, 0 | 1 | 6..=8 | 12);
            assert_eq!(
                refused,
                if is_refusal { run.status } else { 0 },
                "job {index}"
            );
        }
        std::fs::remove_file(file).expect("the file is there");
        assert!(
            same > 200 && texts < 100,
            "{same} compared, {texts} texts too large for the job program"
        );
        for answer in [0, 1, 5, 6, 9] {
            assert!(
                answers[answer] > 3,
                "answer {answer} came {} times",
                answers[answer]
            );
        }
    });
}
