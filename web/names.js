'use strict';
// Completion: a field with a list of names that the program reports, by the keyboard or the pointer.
const names = (() => {
    const DELAY = 120, MOST = 50;

    // The lines of a report that have a name and, after a tab, its definition. A primitive unit is defined as "!".
    const reportedNames = text => text.split('\n').filter(line => line.startsWith('\t'))
        .map(line => line.slice(1).split('\t'))
        .map(([name, meaning = '']) => ({name, meaning: meaning === '!' ? 'primitive' : meaning}));

    // The last word of a text, and the text before it.
    function splitLastWord(text) {
        const word = /[\p{L}_%µ°'"$][\p{L}\p{N}_%µ°'"$]*$/u.exec(text)?.[0] ?? '';
        return [text.slice(0, text.length - word.length), word];
    }

    const matches = ({name, meaning}, word) => name.toLowerCase().includes(word.toLowerCase())
        || meaning.toLowerCase().startsWith(word.toLowerCase());

    // How well an item fits: its name is the word, or begins with it, or has it. The name of a unit in words is as good.
    function place({name, meaning}, word, isPreferred) {
        const sought = word.toLowerCase();
        if (name === word) return 0;
        if (name.startsWith(word) || isPreferred && meaning.toLowerCase().startsWith(sought)) return isPreferred ? 1 : 2;
        return name.toLowerCase().startsWith(sought) ? 3 : 4;
    }

    // Of those that fit as well, preferred names keep their order, and of the others the shortest comes first.
    function rank({preferred, others}, word) {
        const fit = preferred.filter(item => matches(item, word)), known = new Set();
        const isNew = ({name}) => !known.has(name) && known.add(name);
        return [...fit.map((item, i) => [place(item, word, true), 0, i, item]),
            ...operandsOf(others).filter(({name}) => name.toLowerCase().includes(word.toLowerCase()))
                .map((item, i) => [place(item, word, false), item.name.length, i, item])]
            .sort((a, b) => (word === '' ? 0 : a[0] - b[0]) || a[1] - b[1] || a[2] - b[2])
            .map(([, , , item]) => item).filter(isNew);
    }

    // A prefix is no operand by itself, and a function name opens its argument.
    const operandsOf = found => found.filter(({name}) => !name.endsWith('-'))
        .map(({name, meaning}) => ({name: name.replace(/^!unitlist /, '').replace('()', '('), meaning}));

    class Completion {
        // If `isChoice`, an asked list has all names for a field that is one word.
        constructor(id, find, accepted, isChoice) {
            this.field = get(id);
            this.list = get(`${id}-names`);
            this.find = find;
            this.accepted = accepted;
            this.isChoice = isChoice;
            this.timer = 0;
            this.active = -1;
            this.field.addEventListener('input', () => {
                clearTimeout(this.timer);
                this.timer = setTimeout(() => this.open(false), DELAY);
            });
            this.field.addEventListener('keydown', event => this.key(event));
            this.field.addEventListener('blur', () => this.close());
            if (isChoice) this.field.addEventListener('click', () => this.open(true));
        }

        option({name, meaning}, i) {
            const item = element('li', {id: `${this.list.id}-${i}`},
                element('bdi', {className: 'name'}, name), element('span', {className: 'meaning'}, meaning));
            item.setAttribute('role', 'option');
            item.addEventListener('pointerdown', event => {
                event.preventDefault();
                this.accept(i);
            });
            return item;
        }

        open(isAsked) {
            const [before, last] = splitLastWord(this.field.value);
            const isWhole = this.isChoice && isAsked && before === '', word = isWhole ? '' : last;
            const isSought = document.activeElement === this.field && (isAsked || word.length > 1);
            const found = isSought ? rank(this.find(isWhole ? '' : this.field.value, word), word).slice(0, MOST) : [];
            if (found.length === 0 || !isWhole && found.length === 1 && found[0].name === word) return this.close();
            this.list.replaceChildren(...found.map((item, i) => this.option(item, i)));
            this.values = found.map(({name}) => before + name);
            this.list.hidden = false;
            this.list.scrollTop = this.list.scrollLeft = 0;
            this.field.setAttribute('aria-expanded', 'true');
            this.activate(-1);
        }

        close() {
            clearTimeout(this.timer);
            this.list.hidden = true;
            this.field.setAttribute('aria-expanded', 'false');
            this.activate(-1);
        }

        activate(i) {
            this.active = i;
            [...this.list.children].forEach((item, j) => item.setAttribute('aria-selected', i === j));
            if (i < 0) return this.field.removeAttribute('aria-activedescendant');
            this.field.setAttribute('aria-activedescendant', this.list.children[i].id);
            this.list.children[i].scrollIntoView({block: 'nearest'});
        }

        accept(i) {
            this.field.value = this.values[i];
            this.close();
            this.accepted();
        }

        key(event) {
            const step = {ArrowDown: 1, ArrowUp: -1}[event.key], count = this.list.children.length;
            if (this.list.hidden) {
                if (event.key === 'ArrowDown') { event.preventDefault(); this.open(true); }
            } else if (step) {
                event.preventDefault();
                // Past the last name comes the text as it was typed, and then the first.
                this.activate((this.active + 1 + step + count + 1) % (count + 1) - 1);
            } else if (event.key === 'Escape') {
                event.preventDefault();
                this.close();
            } else if ((event.key === 'Enter' || event.key === 'Tab') && this.active >= 0) {
                if (event.key === 'Enter') event.preventDefault();
                this.accept(this.active);
            }
        }
    }

    return {
        reportedNames, matches,
        attach: (id, find, accepted, isChoice = false) => new Completion(id, find, accepted, isChoice),
    };
})();
