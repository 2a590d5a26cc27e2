// What a turn did, in words.

const counted = (many, one, others = one + "s") => `${many} ${many === 1 ? one : others}`;
const task = (number) => `t${number} (${taskNames[number]})`;
const ending = (ending) => (ending.is === "value" ? "value " + ending.value : "fault " + fault(ending));
// A text of which the end is left out where it is longer than that.
const fitting = (text, most) => (text.length <= most ? text : text.slice(0, Math.max(0, most - 2)) + "..");

// How a turn began.
function began(turn) {
    const { resume, before } = turn;
    const own = executors[turn.executor];
    const method = turn.method.startsWith(own + ".") ? turn.method : `${turn.method}, on the executor ${own}`;
    const came = resume.is === "fault" ? "the fault " + fault(resume) : "the value " + resume.value;
    if (resume.is === "start" && turn.turn === 0) return `began its task in ${method}`;
    if (resume.is === "start") return `began ${method}, which ${before ? "it had called in " + before.name : "was called"}`;
    const last = before && before.exit;
    if (last && last.is === "wait") return `went on in ${method}, after the task that it had waited for ended with ${came}`;
    if (last && last.is === "next") return `went on in ${method}, after the next child of its group, for which it had waited, gave ${came}`;
    if (last && last.is === "close") return `went on in ${method}, after all children of its group had ended`;
    if (resume.is === "go") return `went on in ${method}, after it had given way`;
    const called = last && last.is !== "call" ? ", after what it had called came back" : "";
    return `went on in ${method}${called} with ${came}`;
}

// How a turn ended, by the word of its exit.
const ENDED = {
    call: (exit) => `called ${exit.method}, and waits for it`,
    wait: () => "waits for another task to end",
    next: () => "waits for the next child of its group to end",
    yield: () => "gave way to other tasks",
    close: (exit) => "waits for all children of its group to end" + (exit.fault ? `, and then leaves with the fault ${fault(exit)}` : ""),
    return: (exit) => `returned ${exit.value}`,
    fault: (exit) => `ended with the fault ${fault(exit)}`,
};

// What turns of other tasks changed of the fields of a turn's actor since the turn before it of its task on that executor.
function changedMeanwhile(turn) {
    const actor = turn.method.split(".")[0] + ".";
    const own = taskTurns[turn.task].filter((other) => other.executor === turn.executor && other.place < turn.place).pop();
    if (!own) return [];
    const isBetween = ({ executor, place }) => executor === turn.executor && place > own.place && place < turn.place;
    const between = turns.filter((other) => isBetween(other) && other.outcome === "kept");
    const ofActor = (changes) => changes.filter(({ field }) => field.startsWith(actor));
    return between.flatMap((other) => ofActor(other.changes).map((change) => ({ ...change, by: `${other.name} of ${taskNames[other.task]}` })));
}

const changed = ({ field, before, after }) => `${field} from ${before} to ${after}`;

// Why a turn was undone, where `why` names an invariant.
function broke(turn) {
    const said = /^    (invariant .*)$/m.exec(why.get(turn.name) || "");
    const leaving = turn.changes.map(({ field, after }) => `${field} at ${after}`).join(", ");
    const falseThere = said ? `, where the ${said[1].replace(/\( /g, "(").replace(/ \)/g, ")")}` : "";
    const would = leaving ? ` It would have left ${leaving}${falseThere}.` : "";
    return "It was undone: what it had done was taken back." + would;
}

// What a turn did, in sentences.
function sentences(turn) {
    const said = [`Task ${task(turn.task)} ${began(turn)}.`];
    const others = changedMeanwhile(turn);
    const lately = others.slice(-3).map((change) => `${changed(change)} (in ${change.by})`).join(", ");
    if (others.length > 0) said.push(`Meanwhile others had changed ${lately}${others.length > 3 ? ", and more before" : ""}.`);
    said.push(`It ${ENDED[turn.exit.is](turn.exit)}.`);
    const last = taskTurns[turn.task][taskTurns[turn.task].length - 1] === turn;
    if (turn.undone) said.push(broke(turn));
    else if (turn.changes.length === 0) said.push("It changed no field.");
    else said.push("It changed " + turn.changes.map(changed).join(", ") + ".");
    if (turn.made.length > 0) said.push(`It made ${turn.made.map(task).join(", ")}.`);
    if (turn.marks.length > 0) said.push(`It ${turn.marks.join(", ")}.`);
    const raised = turn.raised ? `priority ${turn.before.priority} before, ${turn.priority} now` : "";
    if (turn.raised) said.push(`Its task had become more urgent since its last turn: ${raised}.`);
    if (turn.cancelled) said.push("Its task had been cancelled.");
    if (last) said.push(`This was its task's last turn: the task ended with ${ending(report.tasks[turn.task].ending)}.`);
    if (turn.exit.fault) said.push(`"nuchapay explain ${turn.exit.fault}" says what this fault means.`);
    return said.join(" ");
}

// The turn's line in the journal.
function line(turn) {
    const given = `w${turn.worker} ${turn.method} p${turn.priority} c${turn.cancelled ? 1 : 0}`;
    return `${turn.place} ${turn.name} ${given} ${stateText(turn.resume)} -> ${stateText(turn.exit)}`;
}
