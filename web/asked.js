'use strict';
// The questions that this browser has answered, the last first. Each has a key of its own in local storage, so that tabs do
// not write over each other's.
const asked = (() => {
    const PREFIX = 'units:asked:', MOST = 60, LONGEST = 200;
    const keys = () => storage.keys().filter(key => key.startsWith(PREFIX));

    function questionOf(key) {
        const {time = 0, quantity} = storage.read(key, {});
        try {
            const [from, to] = JSON.parse(key.slice(PREFIX.length));
            return {key, from: String(from), to: String(to), time, quantity};
        } catch {
            return {key, from: '', to: '', time: 0};
        }
    }

    const all = () => keys().map(questionOf).sort((a, b) => b.time - a.time);

    // `quantity` is a key of quantities.js, by which the units of the question are found again.
    function add(from, to, quantity) {
        if (from.length + to.length > LONGEST) return;
        storage.writeIfRoom(PREFIX + JSON.stringify([from, to]), {time: Date.now(), quantity});
        storage.remove(all().slice(MOST).map(({key}) => key));
        list();
    }

    function list() {
        const items = all().filter(({from}) => from).map(({from, to}) => element('li', {}, element('button',
            {type: 'button', onclick: () => convert.put(from, to)}, element('bdi', {}, to ? `${from} → ${to}` : from))));
        get('asked').hidden = items.length === 0;
        if (get('asked').open) get('asked-list').replaceChildren(...items);
    }

    function start() {
        get('asked').addEventListener('toggle', list);
        get('forget').addEventListener('click', () => {
            storage.remove(keys());
            list();
            get('from').focus();
        });
        addEventListener('storage', list);
        list();
    }

    return {
        start, add,
        unitsOf: quantity => [...new Set(all().filter(item => item.quantity === quantity && item.to).map(item => item.to))],
    };
})();
