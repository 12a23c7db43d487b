'use strict';
// The page: its data and its views.
(() => {
    const VIEWS = ['convert', 'session', 'definitions'];
    const OPEN = {convert: convert.show, session: session.open, definitions: definitions.open};
    const FIRST_FIELD = {convert: 'from', session: 'line', definitions: 'text'};

    // ---- Views ----

    const shownView = () => VIEWS.find(view => !get(view).hidden);

    function showView(view, hasFocus) {
        for (const other of VIEWS) {
            get(other).hidden = other !== view;
            get(`tab-${other}`).setAttribute('aria-selected', other === view);
            get(`tab-${other}`).tabIndex = other === view ? 0 : -1;
        }
        OPEN[view]();
        if (hasFocus) get(FIRST_FIELD[view]).focus({preventScroll: true});
    }

    function chooseView(view, hasFocus) {
        showView(view, hasFocus);
        links.write(true);
    }

    function moveInTabs(event) {
        const now = VIEWS.indexOf(shownView()), last = VIEWS.length - 1;
        const next = {
            ArrowRight: (now + 1) % VIEWS.length, ArrowLeft: (now + last) % VIEWS.length, Home: 0, End: last,
        }[event.key];
        if (next === undefined) return;
        event.preventDefault();
        chooseView(VIEWS[next], false);
        get(`tab-${VIEWS[next]}`).focus();
    }

    // ---- Copying ----

    function copyBy(id, text) {
        const button = get(id), label = button.textContent;
        button.addEventListener('click', async () => {
            try {
                await navigator.clipboard.writeText(text());
                button.textContent = 'Copied';
            } catch {
                button.textContent = 'Not allowed';
            }
            setTimeout(() => { button.textContent = label; }, 1500);
        });
    }

    // ---- Start ----

    async function compile(base64) {
        const packed = Uint8Array.from(atob(base64), letter => letter.charCodeAt(0));
        const unpacked = new Blob([packed]).stream().pipeThrough(new DecompressionStream('gzip'));
        return WebAssembly.compile(await new Response(unpacked).arrayBuffer());
    }

    function showFault(fault) {
        get('failure').hidden = false;
        get('failure').textContent = `This browser cannot run the program: ${fault.message}`;
    }

    function startViews(module) {
        options.load();
        convert.start(module, links.write);
        session.start(module);
        definitions.start();
        asked.start();
        options.listen(convert.show);
        for (const view of VIEWS) {
            get(`tab-${view}`).addEventListener('click', () => chooseView(view, true));
            get(`tab-${view}`).addEventListener('keydown', moveInTabs);
        }
        copyBy('copy-answer', convert.copied);
        copyBy('copy-link', links.href);
        copyBy('copy-command', () => get('command').textContent);
        copyBy('copy-session', () => get('transcript').textContent);
    }

    async function start() {
        let module;
        const data = JSON.parse(get('data').textContent);
        try { module = await compile(data.module); } catch (fault) { return showFault(fault); }
        files.load(data.library);
        startViews(module);
        links.start(data.edition, {
            shown: shownView, show: view => showView(VIEWS.includes(view) ? view : 'convert', false),
        });
        get('version').textContent = data.version;
        if (shownView() === 'convert') get('from').focus({preventScroll: true});
        document.documentElement.dataset.started = Math.round(performance.now());
    }

    if (isSupported) start();
})();
