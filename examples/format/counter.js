// A counter on a page: it shows its count, and tells the host when it is full.

function Counter(name, most) {
    this.name = name;
    this.most = most;
    this.count = 0;
}

Counter.prototype.add = function (step) {
    if (step === undefined) {
        step = 1
    }
    this.count += step
    if (this.count >= this.most) return this.full();
    else return this;
};

Counter.prototype.full = function () {
    host.out("full: " + this.name, { "count": this.count, "in": [1, , 2, ] });
    return this;
};

var counters = [];
for (var i = 0; i < 3; i++) {
    counters.push(new Counter('c' + i, (i + 1) * 0x10));
}

scan:
for (;;) {
    for (var k in counters) {
        var counter = counters[k];
        switch (counter.add(- -5).count) {
        case 5:
            continue scan;
        default:
            if (!(counter.count in counters)) break scan
        }
    }
}

(function () {
    try {
        throw new Error("done");
    } catch (e) {
        host.out(e.message);
    } finally {
        counters.length = 0;
    }
})();
