// This model is a buck converter with a light load. It works in discontinuous conduction, because the diode stops the
// current in each period.
// Units: the model uses us, V, A, uH, uF and Ohm.
// Look at the current iL, which remains at 0 until the next pulse. The condition 'iL is at most 0 and the switch is
// off' is written as a single relation with a big number, iL + big*s <= 0.
// Plot: tools/qss-plot examples/buck_dcm.mo --names iL,uC
model buck_dcm "buck converter in discontinuous conduction"
  parameter Real U = 24 "V", L = 100 "uH", C = 100 "uF", R = 100 "Ohm";
  parameter Real period = 100 "us", duty = 0.25, big = 32;
  Real iL(start = 0, unit = "A"), uC(start = 0, unit = "V");
  discrete Real s(start = 1) "1: the switch is on", leads(start = 1) "1: the inductor leads current", on(start = period), off(start = period*duty);
equation
  der(iL) = U/L*s - leads*uC/L;
  der(uC) = (iL - uC/R)/C;
algorithm
  when time >= on then
    s := 1; leads := 1;
    on := pre(on) + period;
  end when;
  when time >= off then
    s := 0;
    off := pre(off) + period;
  end when;
  when iL + big*s <= 0 then
    leads := 0;
    reinit(iL, 0);
  end when;
  annotation(experiment(StopTime = 20000, QSS_CoefBits = 30, QSS_TickBits = 6, QSS_LevelBits = 20, QSS_Quantum = 0.0078125, QSS_TimeUnit = "us"));
end buck_dcm;
