// assemble.js MODULE OUT: the page as one file, its style, its scripts and the WebAssembly module inside it.
'use strict';
const fs = require('fs');
const path = require('path');

const [, , modulePath, out] = process.argv;
const source = (name) => fs.readFileSync(path.join(__dirname, 'src', name), 'utf8');
// In the order in which they name each other.
const scripts = ['reader.js', 'store.js', 'text.js', 'draw.js', 'app.js'].map(source);
const bytes = fs.readFileSync(modulePath).toString('base64').replace(/.{1,160}/g, "'$&',\n");
const embedded = `const MODULE = [\n${bytes}].join('');\n`;
// What a script gives to tests that read it as a file of its own, and each script's own `use strict`, are not the page's.
const trimmed = scripts.map((text) => text.replace(/^'use strict';\n/m, '').replace(/\nif \(typeof module[^\n]*\n/, ''));

const page = source('page.html')
    .replace('/*STYLE*/', () => source('style.css').trimEnd())
    .replace('/*SCRIPT*/', () => `'use strict';\n${embedded}\n${trimmed.join('\n').trimEnd()}`);
fs.writeFileSync(out, page);
