'use strict';
// Says which feature of the page a browser lacks, in a script of its own, which older browsers can read too.
(function () {
    var NEEDED = [
        ['WebAssembly', 'Chrome 57, Firefox 52 or Safari 11'],
        ['BigInt64Array', 'Chrome 85, Firefox 78 or Safari 15'],
        ['DecompressionStream', 'Chrome 80, Firefox 113 or Safari 16.4'],
        ['URLSearchParams', 'Chrome 49, Firefox 44 or Safari 10.1']
    ];
    var TEXT = 'This page needs Chrome 97, Firefox 113, Safari 16.4 or a later version';

    function show(reason) {
        var failure = document.getElementById('failure');
        failure.hidden = false;
        failure.textContent = TEXT + ': ' + reason;
    }

    var missing = NEEDED.filter(function (feature) { return !(feature[0] in window); });
    window.isSupported = missing.length === 0;
    if (missing.length > 0) {
        show(missing.map(function (feature) {
            return 'this browser has no ' + feature[0] + ', which ' + feature[1] + ' has';
        }).join('; ') + '.');
    }
    // Scripts that cannot be read, and a content policy that does not know WebAssembly.
    window.addEventListener('error', function (event) {
        var isStarted = document.documentElement.hasAttribute('data-started');
        if (!isStarted && window.isSupported) show('this browser reports "' + event.message + '".');
    });
})();
