// What a page is checked for, by what the browser has computed of it: each check gives the parts that are wrong, as texts.
(() => {
  const CONTROLS = "a[href], button, input, select, summary, textarea, [role=button]";
  const SMALLEST = 24;      // CSS pixels of what is touched
  const TEXT = 4.5, LARGE = 3, GRAPHICS = 3;

  const name = part => `${part.tagName.toLowerCase()}${part.id ? `#${part.id}` : ""}${part.getAttribute("class") ? `.${part.getAttribute("class").trim().replaceAll(" ", ".")}` : ""}`;
  const said = part => `${name(part)} "${(part.textContent || part.value || "").trim().slice(0, 24)}"`;
  const isShown = part => part.checkVisibility({checkVisibilityCSS: true, checkOpacity: true}) && part.getClientRects().length > 0;
  const isForEyes = part => isShown(part) && !part.closest(".spoken");
  const all = selector => [...document.querySelectorAll(selector)].filter(isForEyes);

  // Where a dialog is open, nothing else can be reached.
  const isReached = part => !document.querySelector("dialog[open]") || part.closest("dialog[open]");

  function channels(text) {
    const numbers = text.match(/[\d.]+/g)?.map(Number) ?? [0, 0, 0, 0];
    return {rgb: numbers.slice(0, 3), alpha: numbers[3] ?? 1};
  }

  function over({rgb, alpha}, back) {
    return rgb.map((value, at) => value * alpha + back[at] * (1 - alpha));
  }

  function backOf(part) {
    if (!part) return channels(getComputedStyle(document.documentElement).getPropertyValue("--back").trim().replace(/^#(..)(..)(..)$/, (_, ...hex) => hex.slice(0, 3).map(two => parseInt(two, 16)).join(","))).rgb;
    const colour = channels(getComputedStyle(part).backgroundColor);
    return colour.alpha === 1 ? colour.rgb : over(colour, backOf(part.parentElement));
  }

  function light(rgb) {
    const [red, green, blue] = rgb.map(value => value / 255).map(value => value <= 0.04045 ? value / 12.92 : ((value + 0.055) / 1.055) ** 2.4);
    return 0.2126 * red + 0.7152 * green + 0.0722 * blue;
  }

  function contrast(colour, back) {
    const [more, less] = [light(over(colour, back)), light(back)].sort((a, b) => b - a);
    return (more + 0.05) / (less + 0.05);
  }

  function isLarge(style) {
    const size = parseFloat(style.fontSize);
    return size >= 24 || size >= 18.66 && Number(style.fontWeight) >= 700;
  }

  const opacity = part => part ? Number(getComputedStyle(part).opacity) * opacity(part.parentElement) : 1;

  function texts() {
    const shown = all("*").filter(part => [...part.childNodes].some(node => node.nodeType === Node.TEXT_NODE && node.textContent.trim()) || part.matches("input, textarea") && part.value);
    return shown.filter(part => isReached(part) && !part.closest("title, option")).flatMap(part => {
      const style = getComputedStyle(part), inPlot = part.closest("svg");
      const colour = channels(inPlot ? style.fill : style.color);
      const found = contrast({...colour, alpha: colour.alpha * opacity(part)}, backOf(inPlot ?? part));
      return found < (isLarge(style) ? LARGE : TEXT) ? [`${said(part)} ${found.toFixed(2)}`] : [];
    });
  }

  function graphics() {
    const points = all("svg .point, svg .stairs").map(part => [part, part.classList.contains("stairs") ? getComputedStyle(part).stroke : getComputedStyle(part).fill, backOf(part.closest("svg"))]);
    const borders = all("input, select, textarea").filter(isReached).map(part => [part, getComputedStyle(part).borderTopColor, backOf(part.parentElement)]);
    return [...points, ...borders].flatMap(([part, colour, back]) => {
      const found = contrast({...channels(colour), alpha: channels(colour).alpha * opacity(part)}, back);
      return found < GRAPHICS ? [`${name(part)} ${found.toFixed(2)}`] : [];
    });
  }

  function targets() {
    return all(CONTROLS).filter(isReached).flatMap(part => {
      const box = (part.matches("input[type=radio], input[type=checkbox]") ? part.closest("label") : part).getBoundingClientRect();
      return box.width < SMALLEST || box.height < SMALLEST ? [`${said(part)} ${Math.round(box.width)}x${Math.round(box.height)}`] : [];
    });
  }

  // What has the focus is seen by an outline that stands out from what it lies on.
  function focus() {
    const before = document.activeElement;
    const wrong = all(CONTROLS).filter(isReached).flatMap(part => {
      part.focus({focusVisible: true, preventScroll: true});
      const style = getComputedStyle(part);
      const isSeen = style.outlineStyle !== "none" && parseFloat(style.outlineWidth) >= 2 && contrast(channels(style.outlineColor), backOf(part.parentElement)) >= GRAPHICS;
      return document.activeElement === part && isSeen ? [] : [said(part)];
    });
    before?.focus?.({preventScroll: true});
    return wrong;
  }

  const named = part => part.getAttribute("aria-label") || part.getAttribute("aria-labelledby") || [...(part.labels ?? [])].some(label => label.textContent.trim())
    || part.matches("button, a, summary") && part.textContent.trim();

  function names() {
    return all(`${CONTROLS}, svg[role=img], [role=region], dialog, table`).filter(part => !named(part)).map(part => part.outerHTML.slice(0, 120));
  }

  function references() {
    const ids = [...document.querySelectorAll("[id]")].map(part => part.id);
    const wanted = ["aria-labelledby", "aria-describedby", "for"].flatMap(kind => [...document.querySelectorAll(`[${kind}]`)].flatMap(part => part.getAttribute(kind).split(/\s+/)));
    return [...ids.filter((id, at) => ids.indexOf(id) !== at).map(id => `${id} twice`), ...wanted.filter(id => !ids.includes(id)).map(id => `no ${id}`)];
  }

  function outline() {
    const levels = all("h1, h2, h3, h4").filter(part => !part.closest("dialog")).map(part => Number(part.tagName[1]));
    const skips = levels.filter((level, at) => at && level > levels[at - 1] + 1).map(level => `h${level} skips a level`);
    const counts = {h1: 1, main: 1, header: 1}, wrong = Object.entries(counts).filter(([tag, count]) => all(tag).length !== count).map(([tag]) => `${all(tag).length} ${tag}`);
    return [...skips, ...wrong, ...(document.documentElement.lang ? [] : ["no language"]), ...(document.title ? [] : ["no title"]), ...(levels[0] === 1 ? [] : ["begins without h1"])];
  }

  function sideways() {
    const wide = document.documentElement.scrollWidth;
    return wide > document.documentElement.clientWidth ? [`${wide} of ${document.documentElement.clientWidth} px`] : [];
  }

  function cells() {
    const heads = all("th").filter(part => !["col", "row"].includes(part.scope)).map(part => `${said(part)} has no scope`);
    const left = all(".number").filter(part => getComputedStyle(part).textAlign !== "right").map(part => `${said(part)} is not on the right`);
    return [...heads, ...left];
  }

  const checks = {texts, graphics, targets, focus, names, references, outline, sideways, cells};
  return Object.fromEntries(Object.entries(checks).map(([name, check]) => [name, check()]).filter(([, wrong]) => wrong.length));
})()
