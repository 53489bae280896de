// What browsers have and the compiler does not know. Only the check of types reads this file (tools/test.py).
declare const DecompressionStream: any;
