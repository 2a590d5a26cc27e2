// How it can end: what was found in a sentence, what was asked, and a table of the outcomes.

function made(name, about, ...parts) {
    const element = document.createElement(name);
    for (const [key, value] of Object.entries(about)) {
        if (key === "press") element.addEventListener("click", value);
        else if (value !== null && value !== false) element.setAttribute(key, value === true ? "" : value);
    }
    element.append(...parts);
    return element;
}

const linkTo = (outcome) => made("button", { type: "button", class: "link", press: () => choose(outcome.place) }, `outcome ${outcome.number}`);
// Parts with something between each two of them.
const joined = (parts, between) => parts.flatMap((part, place) => (place === 0 ? [part] : [between, part]));
const VERDICTS = { holds: "\u2713", false: "\u2717 false", overflow: "\u2717 overflow", fault: "\u2717 fault" };
const ENDS = {
    complete: "The search came to its end: no order of turns leads to another one.",
    limit: "The search has NOT come to its end: it met its limit. There may be more; --limit N goes further.",
    room: "The search has NOT come to its end: the room for tasks ran short. There may be more.",
    partial: "The search has NOT followed every order of turns. There may be more.",
};

function showSummary() {
    const name = more.name.split("/").pop();
    document.title = at("title").textContent = `How ${name} can end`;
    const many = askedOutcomes.length === 0 ? "No outcome was found" : `${counted(askedOutcomes.length, "outcome was", "outcomes were")} found`;
    const end = made("span", { class: answer.search === "complete" ? null : "bad" }, ENDS[answer.search]);
    const left = "to_go" in answer ? `, ${answer.to_go} of them still to go` : "";
    const none = outcomes.length - askedOutcomes.length;
    const beside = none === 0 ? "" : `, and ${counted(none, "other end")}, in red`;
    at("summary").append(`${many}${beside}. `, end, ` It has seen ${counted(answer.states, "state")}${left}.`);
    if (isSwift) showSwift();
}

// What an outcome is in Swift, where it is none, and what is said of those that are so.
const IN_SWIFT = { outcome: "", ends: "ends the process", spins: "may spin" };
const SAID = {
    ends: ["No outcome of Swift: ", ", as before it an invariant or precondition fails, or a value is out of its range."],
    spins: ["A task may spin in ", ": there the script met a limit that Swift does not have."],
};

// Which orders lead to something else than an outcome of Swift.
function showSwift() {
    for (const [word, [before, after]] of Object.entries(SAID)) {
        const these = outcomes.filter(({ inSwift }) => inSwift === word);
        if (these.length === 0) continue;
        const shown = joined(these.slice(0, 12).map(linkTo), ", ");
        at("swift").append(made("div", {}, made("b", { class: "bad" }, before), ...shown, these.length > 12 ? ` and ${these.length - 12} more` : "", after));
    }
}

// Whose turn the last one of these steps is, and what it would have left, where some outcome's schedule begins with them.
function lossOf(steps) {
    const outcome = outcomes.find((one) => one.turns && common(one.steps, steps) === steps.length);
    const last = steps[steps.length - 1];
    const turn = outcome && outcome.turns.get(last.name);
    return turn ? [made("span", { class: "bad" }, ` The last one, of ${outcome.names[last.task]} in ${turn.method}, ${lossText(turn.losses)}.`)] : [];
}

// What was asked, and where it fails.
function showAsked() {
    at("asked").append(...answer.expectations.map(({ text, verdicts }) => {
        const failing = askedOutcomes.filter(({ place }) => verdicts[place] !== "holds");
        const shown = failing.slice(0, 12).map(linkTo);
        const mark = made("b", { class: failing.length > 0 ? "bad" : "good" }, failing.length > 0 ? "\u2717 fails: " : "\u2713 holds in each outcome: ");
        const many = ` in ${failing.length} of ${counted(askedOutcomes.length, "outcome")}: `;
        const where = failing.length > 0 ? [many, ...joined(shown, ", "), failing.length > 12 ? ` and ${failing.length - 12} more` : ""] : [];
        return made("li", {}, mark, made("code", {}, text), ...where);
    }));
    if (undoneSteps === null) {
        const none = `No turn ${answer.search === "complete" ? "is" : "was found that is"} undone by an invariant.`;
        at("undone").textContent = isSwift ? "No turn was found in which an invariant or precondition fails." : none;
        return;
    }
    const with_ = outcomes.filter(({ undone }) => undone.length > 0);
    const what = isSwift ? "An invariant or precondition fails " : "A turn is undone by an invariant ";
    at("undone").append(made("b", { class: "bad" }, what), "in this order: ");
    at("undone").append(...undoneSteps.map((step, place) => cell(step, place === undoneSteps.length - 1 ? "undone" : "")));
    at("undone").append(...lossOf(undoneSteps));
    // Of a Swift file another line says so.
    if (with_.length > 0 && !isSwift) at("undone").append(" A turn is undone in ", ...joined(with_.slice(0, 12).map(linkTo), ", "), with_.length > 12 ? " and more." : ".");
}

// The columns of the table: how the roots end, and what of the rest is not the same in each outcome.
function columns() {
    const columnOf = (part, name, value) => ({ part, name, value, values: new Set(outcomes.map(value)) });
    const tasks = [...new Set(outcomes.flatMap((outcome) => [...outcome.endings.keys()]))];
    const fields = [...new Set(outcomes.flatMap((outcome) => [...outcome.fields.keys()]))];
    const all = [
        ...tasks.map((name) => columnOf("How tasks end", name, (outcome) => outcome.endings.get(name) || "\u2014")),
        ...fields.map((name) => columnOf("Fields at the end", name, (outcome) => outcome.fields.get(name) || "\u2014")),
    ];
    const shown = all.filter((one) => one.values.size > 1 || roots.includes(one.name) || all.length <= 6);
    return { shown, constant: all.filter((one) => !shown.includes(one)) };
}

const anyUndone = outcomes.some(({ undone }) => undone.length > 0);

// The cells of an outcome.
function rowOf(outcome, shown) {
    const [row, seen] = [[made("td", {}, linkTo(outcome))], new Set()];
    if (isSwift) row.push(made("td", { class: "bad" }, IN_SWIFT[outcome.inSwift]));
    outcome.verdicts.forEach((verdict, place) => {
        const [mark, word] = outcome.inSwift === "outcome" ? [verdict === "holds" ? "good" : "bad", VERDICTS[verdict]] : ["faint", "\u2014"];
        row.push(made("td", { class: `${mark}${place === 0 ? " part" : ""}` }, word));
    });
    for (const column of shown) {
        const value = column.value(outcome);
        const first = !seen.has(column.part);
        seen.add(column.part);
        row.push(made("td", { class: `${value.startsWith("fault") ? "bad" : ""}${first ? " part" : ""}${column.values.size === 1 ? " faint" : ""}` }, value));
    }
    if (anyUndone) row.push(made("td", { class: "part" }, outcome.undone.length > 0 ? made("span", { class: "bad" }, outcome.undone.join(" ")) : outcome.turns ? "" : "not shown"));
    row.push(made("td", { class: "number part" }, String(outcome.steps.filter((step) => step.ends).length)));
    return made("tr", { press: () => choose(outcome.place) }, ...row);
}

function showTable() {
    const { shown, constant } = columns();
    const groups = [["", isSwift ? 2 : 1], ...(answer.expectations.length > 0 ? [["Expected", answer.expectations.length]] : [])];
    for (const { part } of shown) {
        if (groups[groups.length - 1][0] === part) groups[groups.length - 1][1] += 1;
        else groups.push([part, 1]);
    }
    groups.push(["", anyUndone ? 2 : 1]);
    const heads = ["Outcome", ...(isSwift ? ["In Swift"] : []), ...answer.expectations.map(({ text }) => text), ...shown.map(({ name }) => name), ...(anyUndone ? [isSwift ? "Ends in turn" : "Undone turns"] : []), "Turns"];
    at("table").append(made("thead", {},
        made("tr", {}, ...groups.map(([part, span]) => made("th", { class: "group", colspan: span }, part))),
        made("tr", {}, ...heads.map((name) => made("th", { scope: "col" }, name)))));
    at("table").append(made("tbody", {}, ...outcomes.map((outcome) => rowOf(outcome, shown))));
    if (constant.length > 0) {
        at("constant").textContent = "The same in each outcome: " + constant.map((one) => `${one.name} ${[...one.values][0]}`).join(", ") + ".";
    }
}
