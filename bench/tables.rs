//! The times of an operation, in lines to read or in rows of Markdown; how they grow, and where the goals stand.

/// The times of an operation: a column for each side, a row for each case.
pub struct Times {
    pub columns: Vec<&'static str>,
    pub rows: Vec<(String, Vec<f64>)>,
}

impl Times {
    /// What one column of a row is to another, where both were timed.
    pub fn ratio(&self, row: usize, ours: &str, theirs: &str) -> Option<f64> {
        let at = |name| self.columns.iter().position(|column| *column == name);
        let times = &self.rows[row].1;
        Some(times[at(ours)?] / times[at(theirs)?])
    }
}

/// Nanoseconds, with a decimal where they are few.
pub fn shown(time: f64) -> String {
    if time < 9.95 {
        return format!("{time:.1}");
    }
    format!("{time:.0}")
}

/// A line: what it is about, and its cells.
pub fn line(markdown: bool, first: &str, cells: &[String], widths: &[usize]) {
    if markdown {
        println!("| {first} | {} |", cells.join(" | "));
    } else {
        let padded: String = cells.iter().zip(widths).map(|(cell, width)| format!("{cell:>width$}")).collect();
        println!("{first:26}{padded}");
    }
}

/// What Markdown has between the names of the columns and the rows.
pub fn rule(markdown: bool, cells: usize) {
    if markdown {
        println!("|---|{}", "---|".repeat(cells));
    }
}

/// How the times grow: what any message costs, an option more, and 1,024 bytes of payload more.
pub fn growth(markdown: bool, operation: &str, times: &Times) {
    let at = |name: &str| &times.rows.iter().find(|row| row.0 == name).unwrap().1;
    let (none, options, payload) = (at("no option"), at("128 options of 8"), at("16384 of payload"));
    let widths: Vec<usize> = times.columns.iter().map(|name| name.len().max(7) + 2).collect();
    let names: Vec<String> = times.columns.iter().map(|name| name.to_string()).collect();
    line(markdown, operation, &names, &widths);
    rule(markdown, names.len());
    let row = |what: &str, cost: &dyn Fn(usize) -> f64| {
        let cells: Vec<String> = (0..none.len()).map(|i| shown(cost(i).max(0.0))).collect();
        line(markdown, what, &cells, &widths);
    };
    row("any message", &|i| none[i]);
    row("an option of 8 bytes", &|i| (options[i] - none[i]) / 128.0);
    row("1,024 bytes of payload", &|i| (payload[i] - none[i]) / 16.0);
    println!();
}

/// Where each goal stands: the largest ratio, and the message that has it.
pub fn goals(markdown: bool, tables: &[Times; 3]) {
    let any = |_: &str| true;
    let four = |name: &str| name.starts_with('(') || name.ends_with("varied");
    let large = |name: &str| name.starts_with("16384");
    let other = |name: &str| !large(name);
    let goals: [(&str, usize, &[&str], &str, &dyn Fn(&str) -> bool, f64); 10] = [
        ("reading in libcoap's time, every message", 0, &["flat", "cursor"], "libcoap", &any, 1.0),
        (
            "reading (a), (b), (c), varied in a fifth of coap-lite's time",
            0,
            &["flat", "cursor"],
            "coap-lite",
            &four,
            0.2,
        ),
        ("a cursor in 1.2 of the time of C's walk", 0, &["cursor"], "C walk", &any, 1.2),
        ("a cursor in 1.2 of the time of C's reading", 0, &["cursor"], "C", &any, 1.2),
        (
            "writing (a), (b), (c), varied in a third of coap-lite's time",
            1,
            &["flat", "builder"],
            "coap-lite",
            &four,
            1.0 / 3.0,
        ),
        ("writing 16,384 of payload in 1.1 of coap-lite's time", 1, &["flat", "builder"], "coap-lite", &large, 1.1),
        ("reading no slower than coap-lite, every message", 0, &["packet", "flat", "cursor"], "coap-lite", &any, 1.0),
        ("writing no slower than coap-lite, every other message", 1, &["flat", "builder"], "coap-lite", &other, 1.0),
        ("a packet made and written no slower than coap-lite's", 1, &["packet"], "coap-lite made", &any, 1.0),
        ("reading and writing no slower, every message", 2, &["flat"], "coap-lite", &any, 1.0),
    ];
    if markdown {
        println!("| Goal | | Largest ratio |");
        rule(markdown, 2);
    }
    for (what, table, ours, theirs, which, most) in goals {
        let times = &tables[table];
        let worst = |ours: &str| {
            let rows = (0..times.rows.len()).filter(|row| which(&times.rows[*row].0));
            let ratios = rows.filter_map(|row| Some((times.ratio(row, ours, theirs)?, &times.rows[row].0)));
            ratios.max_by(|a, b| a.0.total_cmp(&b.0))
        };
        let found: Vec<_> = ours.iter().filter_map(|name| Some((name, worst(name)?))).collect();
        let met = match found.iter().all(|(_, (ratio, _))| *ratio <= most) {
            _ if found.is_empty() => "not timed",
            true => "met",
            false => "not met",
        };
        let ratios: Vec<_> = found.iter().map(|(name, (ratio, case))| format!("{name} {ratio:.2} ({case})")).collect();
        if markdown {
            println!("| {what} | {met} | {} |", ratios.join(", "));
        } else {
            println!("{met:>9}: {what}: {}", ratios.join(", "));
        }
    }
}
