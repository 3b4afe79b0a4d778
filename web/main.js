// Where the page begins. The build puts in the programs of the menu, with the machine and the schedule that show what
// each is about, the worker's text, and the module.

import { begin } from './page.js';

begin(/*PROGRAMS*/ [], /*WORKER*/ '', /*MODULE*/ '');
