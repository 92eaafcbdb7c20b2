function f(){host.out("one");}function g(){return eval($dl_get(2)).apply(this,arguments);}f();g();host.out("three");
