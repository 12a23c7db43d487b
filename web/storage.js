'use strict';
// Elements of the page, and what the browser keeps for it.
const get = id => document.getElementById(id);

function element(kind, properties = {}, ...children) {
    const made = Object.assign(document.createElement(kind), properties);
    made.append(...children);
    return made;
}

// What all tabs keep is in local storage, and what one tab keeps is in its session storage, from which it opens anew. If
// the browser refuses, the page says so, and values last until the page is closed.
const storage = {
    read(key, otherwise) {
        try { return JSON.parse(localStorage.getItem(key)) ?? otherwise; } catch { return otherwise; }
    },
    write(key, value) {
        try {
            localStorage.setItem(key, JSON.stringify(value));
            get('storage-fault').hidden = true;
        } catch (fault) {
            get('storage-fault').hidden = false;
            get('storage-fault').textContent = 'This browser cannot keep your changes. They last until you close the '
                + `page; use Download to keep a file. (${fault.message})`;
        }
    },
    // For what is only convenient: no notice if it is not kept.
    writeIfRoom(key, value) {
        try { localStorage.setItem(key, JSON.stringify(value)); } catch { /* see above */ }
    },
    remove(keys) {
        try { keys.forEach(key => localStorage.removeItem(key)); } catch { /* then nothing was kept */ }
    },
    keys() {
        try { return Object.keys(localStorage); } catch { return []; }
    },
    // Of this tab, or else of the last tab that wrote it.
    readOfTab(key, otherwise) {
        try { return JSON.parse(sessionStorage.getItem(key)) ?? this.read(key, otherwise); } catch { return otherwise; }
    },
    writeOfTab(key, value) {
        this.write(key, value);
        try { sessionStorage.setItem(key, JSON.stringify(value)); } catch { /* `write` has said so */ }
    },
};
