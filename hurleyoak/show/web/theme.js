// Light or dark, and what the browser keeps for a tab, where it keeps anything.
const THEMES = ["auto", "light", "dark"];
/** @type {Record<string, string>} */
const SIGNS = {
  auto: "◐",
  light: "☀",
  dark: "☾"
};

// What was kept for this tab; null where nothing was, or where the browser forbids it.
/** @param {string} name */
export function kept(name) {
  try {
    return sessionStorage.getItem(name);
  } catch {
    return null;
  }
}

/** @param {string} name @param {string} value */
export function keep(name, value) {
  try {
    sessionStorage.setItem(name, value);
  } catch {
    // (then it is forgotten)
  }
}

function keptTheme() {
  try {
    const name = localStorage.getItem("pop-theme") ?? "";
    return THEMES.includes(name) ? name : "auto";
  } catch {
    return "auto";
  }
}

/** @param {HTMLElement} button */
export function theme(button) {
  let now = keptTheme();
  const show = () => {
    document.documentElement.dataset.theme = now;
    button.textContent = SIGNS[now];
    button.setAttribute("aria-label", `Colours: ${now}`);
  };
  button.addEventListener("click", () => {
    now = THEMES[(THEMES.indexOf(now) + 1) % THEMES.length];
    try {
      localStorage.setItem("pop-theme", now);
    } catch {
      // (then it is forgotten)
    }
    show();
  });
  show();
}
