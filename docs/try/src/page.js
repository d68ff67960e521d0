// Begins the page. The library is asked for first: where an engine can't run it, the page says so.

/** Copies a text, and says whether it could. */
async function copy(text, status) {
  try {
    await navigator.clipboard.writeText(text);
    status.textContent = "Copied.";
  } catch {
    status.textContent = "The browser doesn't permit it: select and copy by hand.";
  }
}

async function begin() {
  const { at, FORMATS, makeControls, showControls, withField } = await import("./controls.js");
  const { FIELDS } = await import("../../../bindings/js/index.js");
  const { fragmentOf, LONGEST, stateOf } = await import("./state.js");
  const { show } = await import("./view.js");
  const known = { formats: FORMATS, fields: FIELDS };
  let state = stateOf(location.hash, known);

  const shown = () => {
    showControls(state);
    show(state);
  };
  // Browsers count how often an address changes, so it waits until typing pauses.
  let later;
  const fits = () => state.text.length <= LONGEST;
  const keep = () => fits() && history.replaceState(null, "", `#${fragmentOf(state)}`);
  const change = ({ field, value, ...others }) => {
    state = field === undefined ? { ...state, ...others } : withField(state, field, value);
    clearTimeout(later);
    later = setTimeout(keep, 200);
    at("copied").textContent = "";
    shown();
  };
  makeControls(change);
  at("copy-call").addEventListener("click", () => copy(at("code").textContent, at("copied")));
  at("copy-link").addEventListener("click", () => {
    if (fits()) copy(new URL(`#${fragmentOf(state)}`, location.href).href, at("copied"));
    else at("copied").textContent = "The text is too long for a link.";
  });
  addEventListener("hashchange", () => {
    clearTimeout(later);
    state = stateOf(location.hash, known);
    shown();
  });
  at("fields").open = Object.keys(state.fields).length > 0;
  const { value: typed } = at("text"); // (while the page was loading)
  if (typed) change({ text: typed });
  else shown();
}

begin().catch((fault) => {
  const answer = document.getElementById("answer");
  answer.textContent = fault.message;
  answer.className = "fault";
});
