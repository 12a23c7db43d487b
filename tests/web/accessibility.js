// Rules for accessibility.py. Each function returns the faults of the page as a list of texts, or its state.
(() => {
  const all = selector => [...document.querySelectorAll(selector)];
  const FIELDS = 'input:not([type=checkbox]), select, textarea';
  const isShown = e => e.checkVisibility({visibilityProperty: true, contentVisibilityAuto: true});
  const name = e => `${e.tagName.toLowerCase()}#${e.id}.${e.className} ${e.textContent.trim().slice(0, 20)}`;

  const channels = color => color.match(/[\d.]+/g).map(Number);
  const linear = v => v <= 0.03928 ? v / 12.92 : ((v + 0.055) / 1.055) ** 2.4;
  const luminance = ([r, g, b]) => 0.2126 * linear(r / 255) + 0.7152 * linear(g / 255) + 0.0722 * linear(b / 255);
  const contrast = (one, other) => {
    const [high, low] = [luminance(one), luminance(other)].sort((a, b) => b - a);
    return (high + 0.05) / (low + 0.05);
  };
  const background = e => {
    for (; e; e = e.parentElement) {
      const color = channels(getComputedStyle(e).backgroundColor);
      if (color[3] !== 0) return color;
    }
    return [255, 255, 255];
  };
  // A color over its background, with the opacity of the element and of its ancestors.
  const visibleColor = (e, color) => {
    const back = background(e), front = channels(color);
    let opacity = front[3] ?? 1;
    for (let at = e; at; at = at.parentElement) opacity *= Number(getComputedStyle(at).opacity);
    return front.slice(0, 3).map((v, i) => v * opacity + back[i] * (1 - opacity));
  };
  const hasText = e => [...e.childNodes].some(n => n.nodeType === Node.TEXT_NODE && n.data.trim());

  // WCAG 2 AA requires 4.5 for text (here of any size), and 3 for the edges of fields and the marks of the focus.
  const lowContrast = () => {
    const faults = [];
    const compare = (e, color, part) => {
      const ratio = contrast(visibleColor(e, color), background(e));
      if (ratio < 4.5) faults.push(`${name(e)}${part} ${ratio.toFixed(2)}`);
    };
    for (const e of all('body *').filter(e => isShown(e) && !e.disabled)) {
      if (hasText(e) || e.matches(FIELDS)) compare(e, getComputedStyle(e).color, '');
      if (e.placeholder) compare(e, getComputedStyle(e, '::placeholder').color, ' placeholder');
      for (const side of ['::before', '::after']) {
        const style = getComputedStyle(e, side);
        if (!['none', 'normal', '""'].includes(style.content)) compare(e, style.color, side);
      }
    }
    return faults;
  };
  const faintFields = () => all(FIELDS).filter(isShown).map(e => {
    const ratio = contrast(visibleColor(e, getComputedStyle(e).borderTopColor), background(e.parentElement));
    return ratio < 3 ? `${name(e)} ${ratio.toFixed(2)}` : '';
  }).filter(Boolean);
  const faintFocus = () => {
    const e = document.activeElement, {outlineStyle, outlineWidth, outlineColor} = getComputedStyle(e);
    const ratio = contrast(channels(outlineColor), background(e.parentElement));
    const isSeen = outlineStyle !== 'none' && parseFloat(outlineWidth) >= 2 && ratio >= 3;
    return isSeen ? [] : [`${name(e)} ${outlineStyle} ${outlineWidth} ${ratio.toFixed(2)}`];
  };

  // The smallest target that WCAG 2.2 AA allows is 24 by 24 pixels, and for fingers AAA wants 44.
  const targetsBelow = size => all('button, input, select, summary, [role=option]').filter(isShown).filter(e => {
    const {width, height} = (e.closest('label') ?? e).getBoundingClientRect();
    return Math.round(height) < size || Math.round(width) < size;
  }).map(name);
  const smallTargets = () => targetsBelow(24);
  const smallTouchTargets = () => matchMedia('(pointer: coarse)').matches ? targetsBelow(44) : ['no coarse pointer'];

  // A name from right to left must not reorder the text beside it.
  const mixedDirections = () => all('bdi, .name, .meaning, .reply, .unit, .entered')
    .filter(e => !['isolate', 'isolate-override', 'plaintext'].includes(getComputedStyle(e).unicodeBidi)).map(name);

  const brokenReferences = () => all('*').flatMap(e =>
    ['for', 'aria-controls', 'aria-labelledby', 'aria-describedby', 'aria-activedescendant']
      .filter(key => e.hasAttribute(key) && !document.getElementById(e.getAttribute(key)))
      .map(key => `${name(e)} ${key}`));
  const duplicateIds = () => all('[id]').map(e => e.id).filter((id, i, ids) => ids.indexOf(id) !== i);

  const wrongRoles = () => {
    const rules = [
      ['[role=tab]', e => e.closest('[role=tablist]') && e.hasAttribute('aria-selected')],
      ['[role=tab]', e => document.getElementById(e.getAttribute('aria-controls')).matches('[role=tabpanel]')],
      ['[role=tablist]', e => e.querySelectorAll('[aria-selected=true]').length === 1],
      ['[role=tabpanel]', e => e.hasAttribute('aria-labelledby')],
      ['[role=combobox]', e => e.hasAttribute('aria-expanded') && e.getAttribute('aria-autocomplete') === 'list'],
      ['[role=combobox]', e => document.getElementById(e.getAttribute('aria-controls')).matches('[role=listbox]')],
      ['[role=listbox]', e => [...e.children].every(item => item.matches('[role=option][aria-selected]'))],
      ['[role=option]', e => e.parentElement.matches('[role=listbox]')],
      ['[aria-hidden=true]', e => !e.querySelector('button, input, select, textarea, [tabindex]')],
      ['[tabindex]', e => e.tabIndex <= 0],
      ['img, svg', e => e.hasAttribute('alt') || e.hasAttribute('aria-label') || e.closest('[aria-hidden=true]')],
      ['body > *', e => e.matches('header, main, footer, script, noscript, [role=status], [role=alert]')],
      ['main > *', e => e.matches('[role=tabpanel]')],
      ['[role=status], [role=alert], [role=log]', e => !e.hasAttribute('aria-live')], // each role is live by default
    ];
    return rules.flatMap(([selector, holds], i) => all(selector).filter(e => !holds(e)).map(e => `${i}: ${name(e)}`));
  };

  const structure = () => {
    const levels = all('h1, h2, h3, h4, h5, h6').filter(isShown).map(e => Number(e.tagName[1]));
    const viewport = document.querySelector('meta[name=viewport]').content;
    const moves = all('*').filter(e => {
      const {animationName, transitionDuration} = getComputedStyle(e);
      return animationName !== 'none' || transitionDuration !== '0s';
    });
    return [
      document.documentElement.lang === 'en' || 'language', document.title !== '' || 'title',
      levels[0] === 1 && levels.filter(level => level === 1).length === 1 || 'one heading of level 1, which is first',
      levels.every((level, i) => i === 0 || level <= levels[i - 1] + 1) || `levels of headings ${levels}`,
      all('main').length === 1 || 'one main part', !/user-scalable=no|maximum-scale/.test(viewport) || 'zoom',
      moves.length === 0 || `motion: ${moves.map(name)}`,
    ].filter(result => result !== true);
  };

  const excessWidth = () => document.documentElement.scrollWidth - document.documentElement.clientWidth;

  // The elements that the tab key reaches, in tab order.
  const stops = () => all('a[href], button, input, select, textarea, summary, [tabindex]')
    .filter(e => e.tabIndex >= 0 && !e.disabled && isShown(e));
  const stopIndex = () => stops().indexOf(document.activeElement);
  const focusFirst = () => stops()[0].focus({focusVisible: true});
  // Stops that are wholly above the previous one on the screen. An element in a list that scrolls counts as the list.
  const stopsAgainstReading = () => {
    const boxes = stops().map(e => [e, (e.closest('ul, ol, pre') ?? e).getBoundingClientRect()]);
    return boxes.filter(([, box], i) => i > 0 && box.bottom <= boxes[i - 1][1].top).map(([e]) => name(e));
  };

  globalThis.accessibility = {
    lowContrast, faintFields, faintFocus, smallTargets, smallTouchTargets, mixedDirections, brokenReferences, duplicateIds, wrongRoles, structure,
    excessWidth, stops: () => stops().map(name), stopIndex, focusFirst, stopsAgainstReading,
  };
})()
