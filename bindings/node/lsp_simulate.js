#!/usr/bin/env node
'use strict';
require('./run.js').run('lsp_simulate', process.argv.slice(2));
