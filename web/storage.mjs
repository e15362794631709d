/** What the page keeps in the browser. */
const KEY = "xsugar-page";

/** Returns what was kept, or nothing. */
export function kept() {
  try {
    return JSON.parse(localStorage.getItem(KEY)) ?? {};
  } catch {
    return {};
  }
}

/** Keeps a state, and says whether there was room for it. */
export function keep(state) {
  try {
    localStorage.setItem(KEY, JSON.stringify(state));
    return true;
  } catch {
    return false;
  }
}
