// Bytes as a reader types and sees them: printable characters as they are, a backslash as \\, every other byte as \xNN.
'use strict';

const asText = (bytes) => Array.from(bytes, (byte) => {
    if (byte === 0x5c) return '\\\\';
    return byte >= 0x20 && byte < 0x7f ? String.fromCharCode(byte) : `\\x${byte.toString(16).padStart(2, '0')}`;
}).join('');

// The bytes that a text stands for; characters beyond ASCII are their UTF-8. Null if a backslash is followed by anything else than \ or xNN.
function asBytes(text) {
    const bytes = [];
    const rest = /\\\\|\\x([0-9a-fA-F]{2})|\\|[^\\]+/g;
    for (const [piece, hex] of text.matchAll(rest)) {
        if (hex !== undefined) bytes.push(parseInt(hex, 16));
        else if (piece === '\\\\') bytes.push(0x5c);
        else if (piece === '\\') return null;
        else bytes.push(...new TextEncoder().encode(piece));
    }
    return Uint8Array.from(bytes);
}

const asHex = (bytes) => Array.from(bytes, (byte) => byte.toString(16).padStart(2, '0')).join(' ');

// The bytes of hexadecimal digits, spaces between them as you like; null if they are no whole bytes.
function ofHex(text) {
    const digits = text.replace(/\s+/g, '');
    if (digits.length % 2 !== 0 || /[^0-9a-fA-F]/.test(digits)) return null;
    return Uint8Array.from(digits.match(/../g) ?? [], (pair) => parseInt(pair, 16));
}

const grouped = (number) => number.toLocaleString('en-US');

if (typeof module !== 'undefined') module.exports = { asText, asBytes, asHex, ofHex, grouped };
