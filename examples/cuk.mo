// This model is a Cuk converter of the literature on quantized state systems, with 24 V, a duty cycle of 0.25 and 10
// kHz. It has four states, and the equations of three of them depend on the switch.
// Units: the model uses us, V, A, uH, uF and Ohm.
// Look at the output voltage u2, and at u1, the voltage of the capacitor that transfers the energy.
// Plot: tools/qss-plot examples/cuk.mo --names i1,u1,i2,u2
model cuk "Cuk converter in continuous conduction"
  parameter Real U = 24 "V", L1 = 100 "uH", L2 = 100 "uH", C1 = 100 "uF", C2 = 100 "uF", R = 10 "Ohm";
  parameter Real period = 100 "us", duty = 0.25;
  Real i1(unit = "A"), i2(unit = "A"), u1(unit = "V"), u2(unit = "V");
  discrete Real s(start = 1), on(start = period), off(start = period*duty);
equation
  der(i1) = (U - (1 - s)*u1)/L1;
  der(u1) = ((1 - s)*i1 - s*i2)/C1;
  der(i2) = (s*u1 - u2)/L2;
  der(u2) = (i2 - u2/R)/C2;
algorithm
  when time >= on then
    s := 1;
    on := pre(on) + period;
  end when;
  when time >= off then
    s := 0;
    off := pre(off) + period;
  end when;
  annotation(experiment(StopTime = 5000, QSS_CoefBits = 32, QSS_TickBits = 6, QSS_LevelBits = 20, QSS_Quantum = 0.015625, QSS_TimeUnit = "us"));
end cuk;
