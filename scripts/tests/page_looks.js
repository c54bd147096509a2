// What is wrong with how the page looks, for `scripts/test page`: an expression whose value is
//   cut:   texts of which a part isn't there, and nothing shows it
//   short: texts that end in an ellipsis, as [the class of their element, the number of its point]
//   faint: texts whose contrast with what is behind them is below 4.5 (WCAG 2, level AA)
//   least: the least contrast
(() => {
  const found = {cut: [], short: [], faint: [], least: 21};
  const range = document.createRange();

  const channels = text => text.match(/[\d.]+/g).map(Number);
  const mix = (above, below, share) => [0, 1, 2].map(
    i => above[i] * share + below[i] * (1 - share));
  const luminance = colour => {
    const [r, g, b] = colour.map(
      x => x / 255 <= .04045 ? x / 255 / 12.92 : ((x / 255 + .055) / 1.055) ** 2.4);
    return .2126 * r + .7152 * g + .0722 * b;
  };

  // The contrast of a text with what is behind it, elements that are transparent among them.
  function contrast(element) {
    const path = [];
    for (let e = element; e; e = e.parentElement) path.unshift(e);
    let ground = [255, 255, 255];
    const groups = [];
    for (const e of path) {
      const style = getComputedStyle(e);
      if (Number(style.opacity) < 1) groups.unshift([Number(style.opacity), ground]);
      const [r, g, b, share = 1] = channels(style.backgroundColor);
      ground = mix([r, g, b], ground, share);
    }
    let ink = channels(getComputedStyle(element).color).slice(0, 3);
    for (const [share, below] of groups) {
      ink = mix(ink, below, share);
      ground = mix(ground, below, share);
    }
    const [a, b] = [luminance(ink), luminance(ground)];
    return (Math.max(a, b) + .05) / (Math.min(a, b) + .05);
  }

  // Does an element around the text hide a part of it? A line has some room above and below its
  // letters, which may be hidden.
  function isCut(text, element) {
    range.selectNodeContents(text);
    const box = range.getBoundingClientRect();
    const top = box.top + box.height * .15, bottom = box.bottom - box.height * .1;
    for (let e = element; e !== document.body; e = e.parentElement) {
      if (!/hidden|clip/.test(getComputedStyle(e).overflow)) continue;  // it can be scrolled
      const hole = e.getBoundingClientRect();
      if (box.left < hole.left - .5 || box.right > hole.right + .5 ||
          top < hole.top - .5 || bottom > hole.bottom + .5) return true;
    }
    return false;
  }

  const texts = document.createTreeWalker(document.body, NodeFilter.SHOW_TEXT);
  while (texts.nextNode()) {
    const text = texts.currentNode, element = text.parentElement;
    if (!text.textContent.trim() || !element.getClientRects().length) continue;
    if (element.closest('[role=status]')) continue;  // it is heard, not seen
    const tile = element.closest('#points section');
    const point = tile ? Number(tile.querySelector('h2').textContent) : 0;
    if (getComputedStyle(element).textOverflow === 'ellipsis') {
      if (element.scrollWidth > element.clientWidth) found.short.push([element.className, point]);
      else if (element.clientWidth === 0) found.cut.push(text.textContent);
    } else if (isCut(text, element)) found.cut.push(text.textContent);
    const ratio = contrast(element);
    found.least = Math.min(found.least, ratio);
    if (ratio < 4.5) found.faint.push(text.textContent + ' ' + ratio.toFixed(2));
  }
  return found;
})()
