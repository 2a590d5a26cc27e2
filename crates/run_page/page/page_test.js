"use strict";
// Stands after the page's own script in a test page. It does what a reader would, and leaves what it saw as JSON in the document, where
// tools/run_page_check.py compares it.
(() => {
    const found = (id) => document.getElementById(id);
    const press = (key) => document.dispatchEvent(new KeyboardEvent("keydown", { key, bubbles: true, cancelable: true }));
    const texts = (selector) => [...document.querySelectorAll(selector)].map((element) => element.textContent);
    const tick = (box) => { box.checked = !box.checked; box.dispatchEvent(new Event("change", { bubbles: true })); };
    const chosen = () => {
        const box = document.querySelector("#picture .turn.chosen");
        return box && (box.dataset.turn || "fold");
    };

    // What the page says of the turn that is chosen.
    function told() {
        return {
            turn: chosen(), title: document.querySelector("#picture .turn.chosen title").textContent.split("\n")[0], step: found("step").textContent,
            name: found("turn-name").textContent, said: found("said").textContent, why: found("why").textContent, method: found("method").textContent,
            fields: [...document.querySelectorAll("#values tr")].map((row) => [...row.children].map((cell) => cell.textContent)),
            changed: document.querySelectorAll("#values tr.changed").length, taken: document.querySelectorAll("#values tr.taken").length,
            crossed: document.querySelector("#picture .turn.chosen").classList.contains("undone"),
        };
    }

    // Steps over all cells: forward with what is told of each, and back again.
    function walk() {
        press("Home");
        const forward = [told()];
        while (!found("forward").disabled) {
            press("ArrowRight");
            forward.push(told());
        }
        press("ArrowRight");
        const back = [chosen()];
        while (!found("back").disabled) {
            press("ArrowLeft");
            back.push(chosen());
        }
        return { forward, back };
    }

    // The turns of one task alone, by its button, and by stepping in the task.
    function filtered() {
        document.querySelector("#list [data-only]").click();
        const alone = walk().back.reverse();
        found("all").click();
        document.querySelector("#list [data-first]").click();
        const steps = [chosen()];
        for (const each of alone.slice(1)) {
            press("ArrowDown");
            steps.push(chosen());
        }
        press("ArrowUp");
        found("none").click();
        const none = [found("step").textContent, document.querySelectorAll("#picture .turn").length];
        found("all").click();
        return { alone, steps, none };
    }

    // How many boxes the window shows at each zoom, and how wide all of them are.
    function zoomed() {
        const widths = [];
        for (let times = 0; times < 12; times++) press("-");
        for (let times = 0; times < 10; times++) {
            widths.push([found("plane").offsetWidth, document.querySelectorAll("#picture .turn").length]);
            press("+");
        }
        press("0");
        const fitting = found("plane").offsetWidth <= found("view").clientWidth + 1;
        for (let times = 0; times < 12; times++) press("+");
        return { widths, fitting };
    }

    function lookedAt() {
        const theme = () => document.documentElement.dataset.theme;
        const themes = [theme(), (press("d"), theme()), (press("d"), theme())];
        const keys = [found("keys").hidden, (press("?"), found("keys").hidden), (press("Escape"), found("keys").hidden)];
        window.dispatchEvent(new Event("beforeprint"));
        const printed = texts("#pages .turn title").map((text) => text.split("\n")[0]);
        found("find").value = "t0";
        found("find").dispatchEvent(new Event("input"));
        const listed = texts("#list button.link");
        found("find").value = "";
        found("find").dispatchEvent(new Event("input"));
        return { themes, keys, printed, listed, tasks: texts("#list button.link") };
    }

    // What stands on the page before anything is done.
    const first = {
        ...told(), title: document.title, heading: found("title").textContent, summary: found("summary").textContent, links: texts("#summary button"),
        elements: document.querySelectorAll("script, img, iframe, object, link, b").length,
    };
    const folded = { cells: walk().forward.map((each) => [each.turn, each.name]), ticks: document.querySelectorAll("#overview .tick").length };
    tick(found("fold"));
    const seen = { first, folded, walk: walk(), filtered: filtered(), zoomed: zoomed(), lookedAt: lookedAt() };
    document.body.append(Object.assign(document.createElement("pre"), { id: "test", textContent: JSON.stringify(seen) }));
})();
