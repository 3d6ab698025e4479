// This model is a boost converter from 12 V to 24 V at 50 kHz, in continuous conduction. In its equations states are
// multiplied by (1 - s), where the discrete variable s is 1 while the switch is on.
// Units: the model uses us, V, A, uH, uF and Ohm.
// Look at the voltage uC, which first falls and then rises above 24 V.
// Plot: tools/qss-plot examples/boost_ccm.mo --names iL,uC
model boost_ccm "boost converter in continuous conduction"
  parameter Real U = 12 "V", L = 100 "uH", C = 47 "uF", R = 20 "Ohm";
  parameter Real period = 20 "us", duty = 0.5;
  Real iL(start = 0, unit = "A"), uC(start = 12, unit = "V");
  discrete Real s(start = 1), on(start = period), off(start = period*duty);
equation
  der(iL) = (U - (1 - s)*uC)/L;
  der(uC) = ((1 - s)*iL - uC/R)/C;
algorithm
  when time >= on then
    s := 1;
    on := pre(on) + period;
  end when;
  when time >= off then
    s := 0;
    off := pre(off) + period;
  end when;
  annotation(experiment(StopTime = 5000, QSS_CoefBits = 32, QSS_TickBits = 6, QSS_LevelBits = 20, QSS_Quantum = 0.015625, QSS_TimeUnit = "us"));
end boost_ccm;
