// Helps to find one's way through the violations; the page is whole without it.
(function () {
  "use strict";
  const lines = [...document.querySelectorAll("ol.lines > li")];
  const grades = [...new Set(lines.map(line => line.dataset.grade).filter(Boolean))];
  const title = document.getElementById("verdicts");
  if (!lines.length || !title) return;

  const tools = document.createElement("p");
  tools.className = "tools";
  title.after(tools);

  function open(all) {
    lines.forEach(line => line.hidden || line.querySelectorAll("details").forEach(part => { part.open = all; }));
  }

  function button(words, act) {
    const made = document.createElement("button");
    made.type = "button";
    made.textContent = words;
    made.addEventListener("click", act);
    tools.append(made);
  }

  // A link to a verdict opens it, and shows it where it was hidden.
  function follow() {
    const line = document.getElementById(location.hash.slice(1));
    if (!line || !lines.includes(line)) return;
    line.hidden = false;
    line.querySelectorAll("details").forEach(part => { part.open = true; });
    line.scrollIntoView();
  }
  addEventListener("hashchange", follow);
  follow();

  button("Open all", () => open(true));
  button("Close all", () => open(false));
  if (grades.length < 2) return;

  const label = document.createElement("label");
  const choice = document.createElement("select");
  const said = document.createElement("output");
  choice.add(new Option("all", ""));
  grades.forEach(grade => choice.add(new Option(grade, grade)));
  label.append("Broken verdicts with the grade ", choice);
  tools.append(label, said);
  choice.addEventListener("change", () => {
    lines.forEach(line => { line.hidden = choice.value !== "" && line.dataset.grade !== choice.value; });
    said.textContent = choice.value ? lines.filter(line => !line.hidden).length + " of " + lines.length + " lines" : "";
  });
}());
