"use strict";
// What a reader would do with the page, and what stands in the document then: tools/explorer_page_check.py compares it with the data.
{
    const press = (key) => document.dispatchEvent(new KeyboardEvent("keydown", { key, bubbles: true }));
    const texts = (selector, from = document) => [...from.querySelectorAll(selector)].map((element) => element.textContent);
    const lines = () => [...document.querySelectorAll("#lines .line")].filter((line) => line.querySelector(".name"));
    const barOf = (line) => [...line.querySelectorAll(".step, .bar")].findIndex((element) => element.classList.contains("bar"));
    const look = () => ({
        chosen: texts("#table tr.chosen td:first-child"), heading: at("compared").textContent, parted: at("parted").textContent,
        bars: lines().map(barOf), rows: [...at("turns").tBodies[0].rows].map((row) => texts(".step", row)), commands: at("commands").textContent,
    });
    const seen = {
        title: document.title, summary: at("summary").textContent, asked: texts("#asked li"), undone: texts("#undone .step"), first: null, walk: [],
        swift: at("swift").textContent,
        heads: texts("#table thead tr:last-child th"), cells: [...document.querySelectorAll("#table tbody tr")].map((row) => texts("td", row)),
        lines: lines().map((line) => texts(".step", line)), constant: at("constant").textContent, source: at("source").textContent,
        scripts: document.scripts.length, hidden: ["outcomes", "orders", "compare"].map((id) => at(id).hidden),
    };
    if (outcomes.length > 0) {
        seen.first = look().chosen;
        for (let step = 0; step < outcomes.length; step++) press("ArrowUp");
        for (let step = 0; step < outcomes.length; step++) {
            seen.walk.push(look());
            press("ArrowDown");
        }
        press("ArrowRight");
        seen.compared = look().heading;
        at("other").value = "";
        at("other").dispatchEvent(new Event("change"));
        seen.alone = look();
        document.querySelector("#table tbody tr").click();
        seen.clicked = look().chosen;
    }
    const theme = () => document.documentElement.dataset.theme;
    seen.themes = [theme()];
    for (let step = 0; step < 2; step++) {
        press("d");
        seen.themes.push(theme());
    }
    seen.keys = [at("keys").hidden];
    for (let step = 0; step < 2; step++) {
        press("?");
        seen.keys.push(at("keys").hidden);
    }
    const result = document.createElement("pre");
    result.id = "test";
    result.textContent = JSON.stringify(seen);
    document.body.append(result);
}
