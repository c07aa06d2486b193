#!/usr/bin/env node
'use strict';
require('./run.js').run('lspsync', process.argv.slice(2));
