//! The grammar builder: images byte for byte, and what it refuses.

use bannelgo::grammar::{
    and, any, byte, call, choice, either_case, empty, literal, not, one_of, optional, plus, range,
    sequence, star, times, Builder, Expr, Grammar, GrammarError, MOST_NODES, MOST_RULES,
};

fn one_rule(body: Expr) -> Result<Grammar, GrammarError> {
    Grammar::builder().rule("R", body).build()
}

fn image(body: Expr) -> Vec<u8> {
    one_rule(body).expect("accepted").image().to_vec()
}

/// An image of one rule with these node words.
fn of_words(words: &[u32]) -> Vec<u8> {
    let header = 0x1010_0000 | (words.len() as u32) << 8;
    let mut bytes = header.to_be_bytes().to_vec();
    bytes.extend([0, 0]);
    bytes.extend(words.iter().flat_map(|word| word.to_be_bytes()));
    bytes
}

/// The paper's D2.
#[test]
fn the_papers_digits() {
    let grammar = Grammar::builder()
        .rule("Number", sequence([call("Digit"), star(call("Digit"))]))
        .rule("Digit", range(b'0', b'9'))
        .build()
        .expect("accepted");
    let d2 = [
        0x10, 0x20, 0x05, 0x00, 0x00, 0x00, 0x00, 0x04, 0x30, 0x00, 0x10, 0x02, 0x70, 0x00, 0x10,
        0x00, 0x50, 0x00, 0x30, 0x00, 0x70, 0x00, 0x10, 0x00, 0x20, 0x03, 0x00, 0x39,
    ];
    assert_eq!(grammar.image(), d2);
    assert_eq!(grammar.names().collect::<Vec<_>>(), ["Number", "Digit"]);
    assert_eq!(grammar.rule("Digit"), Some(1));
    assert_eq!(grammar.rule("digit"), None);
    assert_eq!(grammar.name(2), None);
    assert_eq!(grammar.start(), 0);
}

#[test]
fn each_kind_has_its_word() {
    assert_eq!(image(empty()), of_words(&[0]));
    assert_eq!(image(any()), of_words(&[0x1000_0000]));
    assert_eq!(image(byte(0xFF)), of_words(&[0x200F_F0FF]));
    assert_eq!(image(range(1, 2)), of_words(&[0x2000_1002]));
    let any_word = 0x1000_0000;
    let then = sequence([any(), empty()]);
    assert_eq!(image(then), of_words(&[0x3000_1002, any_word, 0]));
    let or_else = choice([any(), empty()]);
    assert_eq!(image(or_else), of_words(&[0x4000_1002, any_word, 0]));
    assert_eq!(image(star(any())), of_words(&[0x5000_1000, any_word]));
    assert_eq!(image(not(any())), of_words(&[0x6000_1000, any_word]));
    let itself = sequence([any(), call("R")]);
    let words = [0x3000_1002, any_word, 0x7000_0000];
    assert_eq!(image(itself), of_words(&words));
}

#[test]
fn what_is_made_of_kinds() {
    let a = || byte(b'a');
    let abc = sequence([a(), sequence([byte(b'b'), byte(b'c')])]);
    assert_eq!(literal("abc"), abc);
    assert_eq!(sequence([a(), byte(b'b'), byte(b'c')]), abc);
    assert_eq!(one_of("ab"), choice([a(), byte(b'b')]));
    let umlauts = choice([literal("ä"), literal("ö"), a()]);
    assert_eq!(one_of("äöa"), umlauts);
    assert_eq!(times(3, a()), sequence([a(), a(), a()]));
    assert_eq!(times(1, a()), a());
    assert_eq!(times(0, a()), empty());
    assert_eq!(plus(a()), sequence([a(), star(a())]));
    assert_eq!(optional(a()), choice([a(), empty()]));
    assert_eq!(and(a()), not(not(a())));
    assert_eq!(sequence([a()]), a());
    assert_eq!(choice([a()]), a());
    assert_eq!(literal(""), empty());
    assert_eq!(sequence([]), empty());
    assert_eq!(choice([]), not(empty()));
    let never = one_rule(one_of("")).expect("accepted");
    assert!(never.read("a").expect("read").length == 0);
    assert_eq!(
        never.read("").expect("read").to_string(),
        "none, length 0, examined 0, nesting 2"
    );
}

#[test]
fn another_rule_may_be_the_start() {
    let two = |start| {
        let rules = Grammar::builder()
            .rule("A", byte(b'a'))
            .rule("B", byte(b'b'));
        rules.start(start).build()
    };
    let grammar = two("B").expect("accepted");
    assert_eq!(grammar.start(), 1);
    assert!(grammar.read("b").expect("read").is_whole());
    let undefined = GrammarError::UndefinedStart { name: "C".into() };
    assert_eq!(two("C"), Err(undefined.clone()));
    assert_eq!(
        undefined.to_string(),
        "the start rule is \"C\", and no rule has that name"
    );
}

fn refused(builder: Builder, number: Option<u8>, words: &str) {
    let error = builder.build().expect_err(words);
    assert_eq!(error.to_string(), words);
    assert_eq!(error.number(), number, "{words}");
}

fn of_rules(rules: &[(&str, Expr)]) -> Builder {
    let rules = rules.iter().cloned();
    rules.fold(Grammar::builder(), |builder, (name, body)| {
        builder.rule(name, body)
    })
}

#[test]
fn a_grammar_of_no_lawful_names() {
    refused(Grammar::builder(), Some(2), "the grammar has no rule");
    let twice = of_rules(&[("A", any()), ("B", any()), ("A", empty())]);
    refused(twice, None, "two rules have the name A");
    let undefined = of_rules(&[("A", any()), ("B", star(call("Missing")))]);
    refused(
        undefined,
        None,
        "rule B calls \"Missing\", and no rule has that name",
    );
    let range = of_rules(&[("A", not(range(b'9', b'0')))]);
    let words = "rule A has a range from 0x39 to 0x30, which ends below its beginning";
    refused(range, Some(4), words);
}

#[test]
fn rules_up_to_64() {
    let names: Vec<String> = (0..MOST_RULES + 2).map(|rule| format!("R{rule}")).collect();
    let rules = |count: usize| {
        let names = names.iter().take(count);
        names.fold(Grammar::builder(), |builder, name| {
            builder.rule(name, any())
        })
    };
    assert!(rules(MOST_RULES).build().is_ok());
    let words = "the grammar has 65 rules; R64 is the first after the 64 that it can have";
    refused(rules(MOST_RULES + 1), Some(2), words);
    let words = "the grammar has 66 rules; R64 is the first after the 64 that it can have";
    refused(rules(MOST_RULES + 2), Some(2), words);
}

#[test]
fn nodes_up_to_1_024() {
    // A literal of n bytes has 2 n - 1 nodes.
    let most = literal(vec![b'a'; MOST_NODES / 2]);
    let two = |more: Expr| of_rules(&[("A", most.clone()), ("B", more)]);
    assert!(two(any()).build().is_ok());
    let words = "the grammar has 1,025 nodes; in rule B it passes the 1,024 that it can have";
    refused(two(star(any())), Some(2), words);
    let first = of_rules(&[("A", literal(vec![b'a'; 513])), ("B", any())]);
    let words = "the grammar has 1,026 nodes; in rule A it passes the 1,024 that it can have";
    refused(first, Some(2), words);
}

/// A rule R with this body is refused because of its nodes.
fn too_many(body: Expr, nodes: usize) -> GrammarError {
    let error = one_rule(body).expect_err("too many nodes");
    let rule = "R".to_string();
    assert_eq!(error, GrammarError::TooManyNodes { rule, nodes });
    error
}

/// Nothing wraps and no stack is used up, however large an expression becomes.
#[test]
fn expressions_past_every_limit() {
    let mut doubled = any();
    for _ in 0..80 {
        doubled = plus(doubled);
    }
    let words = "the grammar has at least 18,446,744,073,709,551,615 nodes; \
                 in rule R it passes the 1,024 that it can have";
    assert_eq!(too_many(doubled, usize::MAX).to_string(), words);

    let mut deep = any();
    for _ in 0..1_000_000 {
        deep = not(deep);
    }
    too_many(deep, 1_000_001);
    for (count, nodes) in [
        (513, 1_025),
        (1_025, 2_049),
        (1_026, 2_051),
        (1 << 40, (1 << 41) - 1),
    ] {
        too_many(times(count, any()), nodes);
        too_many(either_case(times(count, any())), nodes);
    }
    assert!(one_rule(times(usize::MAX, literal("ab"))).is_err());
    assert!(one_rule(times(512, any())).is_ok());
    assert!(one_rule(literal(vec![0; 1 << 20])).is_err());
    assert!(one_rule(choice(vec![any(); 1 << 20])).is_err());

    let mut deepest = any();
    for _ in 1..MOST_NODES {
        deepest = not(deepest);
    }
    let grammar = one_rule(deepest).expect("1,024 nodes");
    assert_eq!(grammar.read("a").expect("read").nesting, MOST_NODES);
}

#[test]
fn a_star_over_nothing_names_its_rule() {
    let blank = ("Blank", star(one_of(" \t")));
    let lines = of_rules(&[
        ("Sheet", plus(call("Line"))),
        ("Line", star(call("Blank"))),
        blank,
    ]);
    let words = "rule Line repeats something that can match without consuming";
    refused(lines, Some(6), words);
    let inner = of_rules(&[("A", call("B")), ("B", sequence([any(), star(not(any()))]))]);
    let words = "rule B repeats something that can match without consuming";
    refused(inner, Some(6), words);
}

#[test]
fn a_ring_names_its_rules() {
    let itself = of_rules(&[("A", any()), ("Sum", sequence([call("Sum"), any()]))]);
    refused(
        itself,
        Some(7),
        "rule Sum is called from itself without consuming",
    );
    let ring = of_rules(&[
        ("Start", call("Sum")),
        (
            "Product",
            choice([sequence([call("Space"), call("Sum")]), any()]),
        ),
        ("Sum", sequence([call("Product"), any()])),
        ("Space", star(byte(b' '))),
    ]);
    let words = "rule Product is called from itself without consuming, through rule Sum";
    refused(ring, Some(7), words);
    let three = of_rules(&[
        ("A", not(call("B"))),
        ("B", star(call("C"))),
        ("C", sequence([call("A"), any()])),
    ]);
    let words = "rule A is called from itself without consuming, through rule B and rule C";
    refused(three, Some(7), words);
    let consumes = of_rules(&[("Sum", optional(sequence([byte(b'('), call("Sum")])))]);
    assert!(consumes.build().is_ok());
}

/// Every message about a rule of this name, which is printed so.
fn names_in_messages(name: &str, printed: &str) {
    let of = |body: Expr| of_rules(&[(name, body)]);
    let rule = |words: &str| format!("rule {printed} {words}");
    let words = rule("calls \"zz\", and no rule has that name");
    refused(of(call("zz")), None, &words);
    let words = rule("has a range from 0x02 to 0x01, which ends below its beginning");
    refused(of(range(2, 1)), Some(4), &words);
    let words = rule("repeats something that can match without consuming");
    refused(of(star(empty())), Some(6), &words);
    let words = rule("is called from itself without consuming");
    refused(of(call(name)), Some(7), &words);
    let ring = of_rules(&[("A", call(name)), (name, call("A"))]);
    let words = format!("rule A is called from itself without consuming, through rule {printed}");
    refused(ring, Some(7), &words);
    let twice = of_rules(&[(name, any()), (name, any())]);
    refused(twice, None, &format!("two rules have the name {printed}"));
    let words = format!(
        "the grammar has 1,027 nodes; in rule {printed} it passes the 1,024 that it can have"
    );
    refused(of(times(514, any())), Some(2), &words);
    let first = (0..MOST_RULES).map(|rule| format!("R{rule}"));
    let rules = first.fold(Grammar::builder(), |builder, name| {
        builder.rule(name, any())
    });
    let words =
        format!("the grammar has 65 rules; {printed} is the first after the 64 that it can have");
    refused(rules.rule(name, any()), Some(2), &words);
}

#[test]
fn names_are_quoted_where_they_would_not_be_seen() {
    for name in [
        "Sum", "rule 0", "a b", "Sum'", "'", "größe", "e\u{301}", "→",
    ] {
        names_in_messages(name, name);
    }
    names_in_messages("", "\"\"");
    names_in_messages("a\nb", "\"a\\nb\"");
    names_in_messages("\t'", "\"\\t'\"");
    names_in_messages("\"", "\"\\\"\"");
    names_in_messages("\\", "\"\\\\\"");
    names_in_messages("\u{2028}", "\"\\u{2028}\"");
    let start = Grammar::builder().rule("A", any()).start("");
    let words = "the start rule is \"\", and no rule has that name";
    refused(start, None, words);
}
