// This model is the buck converter of the literature on quantized state systems, from 24 V to 12 V at 10 kHz. It has an
// ideal switch and no controller, and works in continuous conduction.
// Units: the model uses us, V, A, uH, uF and Ohm.
// Look at the ripple of the current iL, and at the oscillation of the voltage uC, which decays.
// Plot: tools/qss-plot examples/buck_ccm.mo --names iL,uC,s
model buck_ccm "buck converter, ideal switch, continuous conduction"
  parameter Real U = 24 "V", L = 100 "uH", C = 100 "uF", R = 10 "Ohm";
  parameter Real period = 100 "us", duty = 0.5;
  Real iL(start = 0, unit = "A"), uC(start = 0, unit = "V");
  discrete Real s(start = 1), on(start = period), off(start = period*duty);
equation
  der(iL) = (U*s - uC)/L;
  der(uC) = (iL - uC/R)/C;
algorithm
  when time >= on then
    s := 1;
    on := pre(on) + period;
  end when;
  when time >= off then
    s := 0;
    off := pre(off) + period;
  end when;
  annotation(experiment(StopTime = 5000, QSS_CoefBits = 32, QSS_TickBits = 6, QSS_LevelBits = 20, QSS_Quantum = 0.015625, QSS_TimeUnit = "us"));
end buck_ccm;
