#!/usr/bin/env node
// The program snobol4, by the module for WebAssembly: on any machine that has node, from 18 on.
import { run } from './command.mjs';

run('snobol4');
