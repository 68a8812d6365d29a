//! The pictures of the program `chart`, read back and compared with what this implementation says of the plan.

mod svg;

use crate::programs::lines::first_difference;
use crate::programs::output::hex;
use crate::programs::running::printed_text;
use crate::second::bytes::read_plan;
use crate::second::rules::{Refusal, Site};
use std::path::Path;
use svg::{read_svg, Element};

/// Of a longer frame the first slots are shown.
const MOST_SHOWN: u64 = 128;

/// The length of a full bar, and the height of a row, in pixels.
const BAR: u64 = 80;
const ROW: u64 = 20;

/// What two numbers of slots are apart at least, so that three digits have room.
const NUMBERS_APART: u64 = 24;

/// What the picture of a plan does not show as it should, or what is wrong with the picture itself.
fn objection(plan: &[u8], picture: &str) -> Option<String> {
    match shown_lines(picture) {
        Ok(found) => first_difference(&found, &expected_lines(plan)),
        Err(objection) => Some(objection),
    }
}

/// The program draws one plan, so it is run for each.
pub fn compare_picture(program: &Path, plan: &[u8]) -> Result<(), String> {
    let objection = match printed_text(program, &[], plan) {
        Ok(picture) => objection(plan, &picture),
        Err(error) => Some(error),
    };
    let (name, input) = (program.display(), hex(plan));
    match objection {
        None => Ok(()),
        Some(what) => Err(format!("{name}: {what}\ninput:\n{}", input.trim_start())),
    }
}

/// What a picture has to show of a plan: a line for each title, row and flow.
fn expected_lines(plan: &[u8]) -> String {
    match read_plan(plan) {
        Err(refusal) => format!("{}\n", refusal_line(refusal)),
        Ok(site) if site.links == 0 => "no links\n".to_string(),
        Ok(site) => panel_lines(&site) + &flow_lines(&site),
    }
}

fn parent_name(parent: usize) -> String {
    match parent {
        0 => "under server (node 0)".to_string(),
        _ => format!("under node {parent}"),
    }
}

fn refusal_line(Refusal { number, place }: Refusal) -> String {
    let place = match number {
        11 => parent_name(place),
        12 => format!("on link {place}"),
        13 => format!("for flow {place}"),
        _ => format!("at byte {place}"),
    };
    format!("refused {number} {place}")
}

fn counted(count: u64, thing: &str) -> String {
    let plural = if count == 1 { "" } else { "s" };
    format!("{count} {thing}{plural}")
}

fn listed(numbers: impl Iterator<Item = u64>) -> String {
    numbers.map(|number| format!(" {number}")).collect()
}

fn panel_lines(site: &Site) -> String {
    let parents = 0..=site.links as usize;
    let with_children = parents.filter(|&parent| !site.children(parent).is_empty());
    let panels: String = with_children
        .map(|parent| lines_under(site, parent))
        .collect();
    let links = counted(site.links, "link");
    let flows = counted(site.live_flows().len() as u64, "flow");
    format!("{links}, {flows}\n{panels}")
}

fn lines_under(site: &Site, parent: usize) -> String {
    let children = site.children(parent);
    let periods = children.iter().map(|child| site.periods[child - 1]);
    let frame = periods.max().unwrap_or(0);
    let shown = frame.min(MOST_SHOWN);
    let idle = |slot: u64| !children.iter().any(|&child| site.sends(child, slot));
    let rows: String = children
        .iter()
        .map(|&child| link_line(site, child, shown))
        .collect();
    let idle_slots = listed((0..shown).filter(|&slot| idle(slot)));
    let title = title(site, parent, frame, (0..frame).filter(|&slot| idle(slot)));
    format!("{title}, {shown} drawn\n{rows}idle: slots{idle_slots}\n")
}

fn title(site: &Site, parent: usize, frame: u64, idle: impl Iterator<Item = u64>) -> String {
    let name = parent_name(parent);
    let assigned = site.assign_under(parent).expect("the site was accepted");
    let (base, slots, idle) = (assigned.base, counted(frame, "slot"), idle.count());
    let cut = match frame {
        0..=MOST_SHOWN => String::new(),
        _ => format!(", first {MOST_SHOWN} of {frame} slots shown"),
    };
    format!("{name} base {base}, frame of {slots}, {idle} idle{cut}")
}

fn link_line(site: &Site, link: usize, shown: u64) -> String {
    let (offset, period) = (site.offsets[link - 1], site.periods[link - 1]);
    let (load, capacity) = (site.reserved(link), site.capacities[link - 1]);
    let bar = (BAR * load / capacity).max(load.min(1));
    let colour = if load * 10 >= capacity * 9 {
        "full"
    } else {
        "load"
    };
    let slots = listed((0..shown).filter(|&slot| site.sends(link, slot)));
    format!("link {link}: from {offset} every {period}, {load} of {capacity}, {colour} {bar}, slots{slots}\n")
}

fn flow_lines(site: &Site) -> String {
    let flows = site.live_flows().into_iter();
    flows.map(|flow| flow_line(site, flow)).collect()
}

fn flow_line(site: &Site, flow: usize) -> String {
    let links = site.route_of_flow(flow).into_iter();
    let route: String = links.map(|link| format!("{link} > ")).collect();
    let (rate, bound, deadline) = (site.rates[flow], site.bound(flow), site.deadlines[flow]);
    format!("flow {flow}: {route}server, {rate}, {bound}, {deadline}\n")
}

/// The same lines, of what a picture shows.
fn shown_lines(picture: &str) -> Result<String, String> {
    let root = read_svg(picture)?;
    let page = Page::of(&root)?;
    check_alone(&root)?;
    let (mut lines, mut below) = (String::new(), 0);
    for element in root.elements() {
        match element.attribute("id") {
            Some("refused") => lines += &shown_refusal(element)?,
            Some("wired") => lines += "no links\n",
            Some("flows") => lines += &shown_flows(element, &page, &mut below)?,
            Some(id) => lines += &shown_panel(element, id, &page, &mut below)?,
            None => {}
        }
    }
    Ok(heading(&root) + &lines)
}

struct Page {
    width: u64,
    height: u64,
}

impl Page {
    fn of(root: &Element) -> Result<Page, String> {
        let (width, height) = (root.number("width")?, root.number("height")?);
        let view = format!("0 0 {width} {height}");
        if root.name != "svg" || root.given("viewBox")? != view {
            return Err("no picture of its own size".to_string());
        }
        Ok(Page { width, height })
    }
}

/// The picture needs nothing besides itself, and every id stands for one element.
fn check_alone(root: &Element) -> Result<(), String> {
    if root.given("xmlns")? != "http://www.w3.org/2000/svg" {
        return Err("no SVG".to_string());
    }
    let mut ids = Vec::new();
    for element in root.all() {
        let linked = ["href", "src"].map(|name| element.attribute(name));
        if element.name == "script" || linked.iter().any(Option::is_some) {
            return Err(format!("<{}> needs something else", element.name));
        }
        ids.extend(element.attribute("id"));
    }
    let count = ids.len();
    ids.sort_unstable();
    ids.dedup();
    if ids.len() < count {
        return Err("two elements with one id".to_string());
    }
    Ok(())
}

/// The numbers of links and flows stand behind the title; other pictures have no numbers there.
fn heading(root: &Element) -> String {
    let mut texts = root.named("text").map(Element::text);
    let numbers = texts.find_map(|text| Some(text.strip_prefix("Slot plan ")?.to_string()));
    numbers.map_or(String::new(), |numbers| numbers + "\n")
}

/// What the number means is said in words, which are not compared.
fn shown_refusal(element: &Element) -> Result<String, String> {
    let text = element.text();
    match text.split_once(": ") {
        Some((refusal, meaning)) if meaning.len() > 20 => Ok(format!("{refusal}\n")),
        _ => Err(format!("a refusal without its meaning: {text}")),
    }
}

/// The two numbers of `WORD(x y)` in a transform.
fn pair(element: &Element, word: &str) -> Result<(u64, u64), String> {
    let transform = element.given("transform")?;
    let numbers = || {
        let (_, after) = transform.split_once(&format!("{word}("))?;
        let (inside, _) = after.split_once(')')?;
        let (x, y) = inside.split_once(' ')?;
        Some((x.parse().ok()?, y.parse().ok()?))
    };
    numbers().ok_or_else(|| format!("no {word} of two numbers: {transform}"))
}

/// How far down an element begins: not above what was drawn before it.
fn top(element: &Element, below: u64) -> Result<u64, String> {
    match pair(element, "translate")? {
        (0, y) if y >= below => Ok(y),
        place => Err(format!("drawn at {place:?}, over what ends at {below}")),
    }
}

/// The texts of an element, which stand beside each other.
fn texts<const COUNT: usize>(element: &Element) -> Result<[String; COUNT], String> {
    let texts: Vec<String> = element.named("text").map(Element::text).collect();
    texts.try_into().map_err(|texts: Vec<String>| {
        let count = texts.len();
        format!("{count} texts in place of {COUNT}: {}", element.text())
    })
}

/// The ids of the rows are the words before their colons, without the space.
fn check_id(element: &Element, line: &str) -> Result<(), String> {
    let (name, _) = line.split_once(':').unwrap_or_default();
    if element.attribute("id") != Some(name.replace(' ', "").as_str()) {
        return Err(format!("another id for {name}"));
    }
    Ok(())
}

fn shown_flows(table: &Element, page: &Page, below: &mut u64) -> Result<String, String> {
    let start = top(table, *below)?;
    let (mut lines, mut end) = (String::new(), 0);
    for row in table.named("g").filter(|row| row.attribute("id").is_some()) {
        let [flow, route, rate, bound, deadline] = texts(row)?;
        let line = format!("flow {flow}: {route}, {rate}, {bound}, {deadline}\n");
        check_id(row, &line)?;
        end = top(row, end)? + ROW;
        lines += &line;
    }
    if start + end > page.height {
        return Err("flows below the end of the page".to_string());
    }
    *below = start + end;
    Ok(lines)
}

/// Where the slots of a panel begin, and how wide each is.
#[derive(PartialEq, Eq)]
struct Grid {
    left: u64,
    width: u64,
}

impl Grid {
    fn of(path: &Element) -> Result<Grid, String> {
        let (left, _) = pair(path, "translate")?;
        let (width, _) = pair(path, "scale")?;
        Ok(Grid { left, width })
    }
}

fn shown_panel(panel: &Element, id: &str, page: &Page, below: &mut u64) -> Result<String, String> {
    let start = top(panel, *below)?;
    let title = panel.named("text").next().ok_or("a panel without title")?;
    let title = title.text();
    let mut rows = Rows::new();
    for row in panel.named("g").filter(|row| row.attribute("id").is_some()) {
        rows.add(row)?;
    }
    let grid = rows.grid.ok_or("a panel without rows")?;
    let drawn = drawn_slots(panel, &grid)?;
    check_numbers(panel, &grid, drawn)?;
    let parent: String = id.chars().filter(char::is_ascii_digit).collect();
    let name = parent_name(parent.parse().map_err(|_| format!("id {id}"))?);
    if id != format!("node{parent}") || !title.starts_with(&format!("{name} ")) {
        return Err(format!("id {id} of the panel {title}"));
    }
    if grid.left + drawn * grid.width > page.width {
        return Err(format!("slots beyond the page, {title}"));
    }
    *below = start + rows.end;
    Ok(format!("{title}, {drawn} drawn\n{}", rows.lines))
}

/// The rows of a panel, one below the other, with their slots in the same grid.
struct Rows {
    lines: String,
    end: u64,
    grid: Option<Grid>,
}

impl Rows {
    fn new() -> Rows {
        Rows {
            lines: String::new(),
            end: 0,
            grid: None,
        }
    }

    fn add(&mut self, row: &Element) -> Result<(), String> {
        self.end = top(row, self.end)? + ROW;
        let path = row.named("path").next().ok_or("a row without path")?;
        let grid = Grid::of(path)?;
        if self.grid.as_ref().is_some_and(|first| *first != grid) {
            return Err(format!("another grid in the row of {}", row.text()));
        }
        self.grid = Some(grid);
        let slots = listed(marked_slots(path)?.into_iter());
        let idle = row.given("id")?.starts_with("idle");
        let line = if idle {
            let [name] = texts(row)?;
            format!("{name}: slots{slots}\n")
        } else {
            let [name, timing, load] = texts(row)?;
            let bar = shown_bar(row)?;
            format!("{name}: {timing}, {load}, {bar}, slots{slots}\n")
        };
        let class = if idle { "idle" } else { "sends" };
        if path.attribute("class") != Some(class) {
            return Err(format!("another colour of marks in {line}"));
        }
        if !idle {
            check_id(row, &line)?;
        }
        self.lines += &line;
        Ok(())
    }
}

/// `M5 0h1` marks slot 5.
fn marked_slots(path: &Element) -> Result<Vec<u64>, String> {
    let marks = path.given("d")?;
    let mut slots = Vec::new();
    for mark in marks.split('M').skip(1) {
        let slot = mark.strip_suffix(" 0h1").and_then(|slot| slot.parse().ok());
        slots.push(slot.ok_or_else(|| format!("no mark: M{mark}"))?);
    }
    Ok(slots)
}

/// The bar in a row's colour, within its room.
fn shown_bar(row: &Element) -> Result<String, String> {
    let mut bars = row.named("rect");
    let (Some(room), Some(bar), None) = (bars.next(), bars.next(), bars.next()) else {
        return Err(format!("no bar: {}", row.text()));
    };
    if room.number("width")? != BAR || room.number("x")? != bar.number("x")? {
        return Err(format!("a bar outside its room: {}", row.text()));
    }
    Ok(format!("{} {}", bar.given("class")?, bar.number("width")?))
}

/// How many slots the lines at the edges of slots make, one pixel wide each.
fn drawn_slots(panel: &Element, grid: &Grid) -> Result<u64, String> {
    let edges = panel.of_class("edges").next().ok_or("no edges of slots")?;
    let dashes = edges.given("stroke-dasharray")?;
    let line = edges.given("d")?;
    let length = || -> Option<u64> {
        let line = line.strip_prefix(&format!("M{} ", grid.left))?;
        line.split_once('h')?.1.parse().ok()
    };
    let length = length().ok_or_else(|| format!("edges of slots in {line}"))?;
    if dashes != format!("1 {}", grid.width - 1) || length % grid.width != 1 {
        return Err(format!("edges {dashes} of slots {} wide", grid.width));
    }
    Ok(length / grid.width)
}

/// Each number stands in the middle of its slot, and every slot has one, or every second, fourth and so on, as far as there is room.
fn check_numbers(panel: &Element, grid: &Grid, drawn: u64) -> Result<(), String> {
    let mut step = 1;
    while step * grid.width < NUMBERS_APART {
        step *= 2;
    }
    let middle = |slot: u64| grid.left + slot * grid.width + grid.width / 2;
    let slots = (0..drawn).step_by(step as usize);
    let expected: Vec<(u64, String)> = slots.map(|slot| (middle(slot), slot.to_string())).collect();
    let axes: Vec<&Element> = panel.of_class("numbers").collect();
    for axis in &axes {
        let numbers: Result<Vec<(u64, String)>, String> = axis
            .named("text")
            .map(|number| Ok((number.number("x")?, number.text())))
            .collect();
        if numbers? != expected {
            return Err(format!("numbers of {drawn} slots: {}", axis.text()));
        }
    }
    if axes.is_empty() {
        return Err("no numbers of slots".to_string());
    }
    Ok(())
}

#[cfg(test)]
mod tests {
    use super::*;

    /// The stored run: its plan and its picture.
    fn stored() -> (Vec<u8>, String) {
        let folder = Path::new(env!("CARGO_MANIFEST_DIR")).join("../crates/chart");
        let read = |name: &str| std::fs::read(folder.join(name)).unwrap();
        let picture = String::from_utf8(read("stdout")).unwrap();
        (read("stdin"), picture)
    }

    /// What is objected to in the stored picture with one text changed, at the first place where it stands.
    fn changed(from: &str, to: &str) -> String {
        let (plan, picture) = stored();
        assert!(picture.contains(from), "{from}");
        let picture = picture.replacen(from, to, 1);
        objection(&plan, &picture).unwrap_or_else(|| panic!("{to} passes for {from}"))
    }

    #[test]
    fn the_stored_picture_shows_its_plan() {
        let (plan, picture) = stored();
        assert_eq!(objection(&plan, &picture), None);
        let site = read_plan(&plan).unwrap();
        let lines = expected_lines(&plan);
        let ends = |end: &str| lines.lines().filter(|line| line.ends_with(end)).count();
        assert!(ends(" slots shown, 128 drawn") > 1 && ends("slots") == 1);
        assert!(site.depth(13) == 8 && site.live_flows().len() == 12);
        let full = |link: &usize| site.reserved(*link) == site.capacities[link - 1];
        assert_eq!(site.nodes().iter().filter(|link| full(link)).count(), 2);
        assert!(site.nodes().iter().any(|&link| site.reserved(link) == 0));
    }

    #[test]
    fn a_mark_that_is_moved_missing_or_too_many_is_objected_to() {
        for (from, to) in [
            ("M29 0h1", "M30 0h1"),
            ("M29 0h1", ""),
            ("M29 0h1", "M29 0h1M30 0h1"),
        ] {
            assert!(changed(from, to).contains("found:    link 2:"), "{to}");
        }
        assert!(changed("M5 0h1M6 0h1", "M5 0h1").contains("idle: slots 5 8"));
        assert!(changed("M29 0h1", "M29 0h2").contains("no mark"));
        assert!(changed("scale(8 12)", "scale(9 12)").contains("another grid"));
    }

    #[test]
    fn a_figure_of_a_link_that_is_changed_is_objected_to() {
        for (from, to) in [
            ("1988 of 2586", "1989 of 2586"),
            ("1988 of 2586", "1988 of 2587"),
            ("from 1 every 28", "from 1 every 29"),
            ("width=\"61\"", "width=\"62\""),
        ] {
            assert!(changed(from, to).contains("found:    link 2:"), "{to}");
        }
        assert!(
            changed("class=\"full\" x=\"216\"", "class=\"load\" x=\"216\"").contains("link 1:")
        );
        assert!(changed("id=\"link2\"", "id=\"link20\"").contains("another id for link 2"));
        assert!(changed("translate(0 66)", "translate(0 60)").contains("ends at 66"));
    }

    #[test]
    fn a_flow_that_is_changed_is_objected_to() {
        for (from, to) in [
            (">14 &gt; 4 &gt; server", ">15 &gt; 4 &gt; server"),
            (">14 &gt; 4 &gt; server", ">14 &gt; server"),
            (">2049<", ">2050<"),
            (">960<", ">961<"),
            ("x=\"440\">2<", "x=\"440\">3<"),
        ] {
            assert!(changed(from, to).contains("found:    flow 9:"), "{to}");
        }
        assert!(changed("translate(0 118)", "translate(0 98)").contains("ends at 118"));
    }

    #[test]
    fn a_title_that_is_changed_is_objected_to() {
        for (from, to, objection) in [
            ("19 links", "18 links", "found:    18 links, 12 flows"),
            ("12 flows", "13 flows", "found:    19 links, 13 flows"),
            ("base 7", "base 14", "server (node 0) base 14,"),
            (
                "frame of 896",
                "frame of 448",
                "frame of 448 slots, 729 idle",
            ),
            ("729 idle", "728 idle", "728 idle, first"),
            (", first 128 of 896 slots shown", "", "729 idle, 128 drawn"),
            ("h1025", "h1017", "slots shown, 127 drawn"),
            ("under node 4<", "under node 14<", "id node4 of the panel"),
        ] {
            assert!(changed(from, to).contains(objection), "{to}");
        }
    }

    #[test]
    fn a_picture_that_is_no_whole_is_objected_to() {
        let size = |height: u64| format!("height=\"{height}\" viewBox=\"0 0 1472 {height}\"");
        for (from, to, objection) in [
            ("</g>", "", "</g> expected at: </svg>"),
            ("</svg>\n", "", "ends in an element"),
            (
                "x=\"460\" y=\"40\">4<",
                "x=\"461\" y=\"40\">4<",
                "numbers of 128 slots",
            ),
            (
                "x=\"460\" y=\"40\">4<",
                "x=\"460\" y=\"40\">5<",
                "numbers of 128 slots",
            ),
            ("\"numbers\"", "\"number\"", "no numbers of slots"),
            ("0 0 1472", "0 0 1471", "no picture of its own size"),
            (&size(1870), &size(1800), "flows below the end of the page"),
            (
                "<style>",
                "<script>1</script><style>",
                "<script> needs something else",
            ),
            (
                "<style>",
                "<g href=\"a\"/><style>",
                "<g> needs something else",
            ),
            ("id=\"idle0\"", "id=\"node0\"", "two elements with one id"),
        ] {
            assert!(changed(from, to).contains(objection), "{to}");
        }
    }

    #[test]
    fn a_picture_of_another_plan_is_objected_to() {
        let (plan, picture) = stored();
        assert!(objection(&plan[..plan.len() - 1], &picture).is_some());
        assert!(objection(&[0xFF], &picture).is_some());
    }

    /// A picture with one line of text.
    fn one_line(id: &str, text: &str) -> String {
        format!("<svg xmlns=\"http://www.w3.org/2000/svg\" width=\"9\" height=\"8\" viewBox=\"0 0 9 8\"><text id=\"{id}\">{text}</text></svg>\n")
    }

    #[test]
    fn refusals_and_plans_without_links_are_compared_too() {
        let meaning = ": a meaning in plain words";
        let refused = |text: &str| one_line("refused", &format!("{text}{meaning}"));
        let crowded = [1, 0, 9, 0, 1, 0, 1, 1, 9, 0, 1, 0, 1, 1, 9, 0, 1, 0, 0xFF];
        let full = [1, 0, 9, 0, 1, 0, 2, 5, 1, 10, 3, 0, 0xFF];
        let late = [1, 0, 255, 0, 10, 0, 2, 55, 1, 10, 3, 0, 0xFF];
        let plans: [(&[u8], &str); 5] = [
            (&[], "refused 2 at byte 0"),
            (&[0xFF, 7], "refused 10 at byte 1"),
            (&crowded, "refused 11 under node 1"),
            (&full, "refused 12 on link 1"),
            (&late, "refused 13 for flow 55"),
        ];
        for (plan, text) in plans {
            assert_eq!(objection(plan, &refused(text)), None, "{text}");
            assert!(objection(plan, &refused("refused 3 at byte 0")).is_some());
            assert!(objection(plan, &one_line("refused", text)).is_some());
        }
        let wired = one_line("wired", "this plan has no links");
        assert_eq!(objection(&[0xFF], &wired), None);
        assert!(objection(&[0xFF], &refused("refused 9 at byte 0")).is_some());
        assert!(objection(&[], &wired).is_some());
    }
}
