// Pulses: a source that is 5 V for the first 0.25 ms of each period of 1 ms, with a delay of 0.5 ms.
// Units: ms, V, kOhm, uF. Look at u and v; v ripples about the mean of the pulses, which is 1.25 V.
// Plot: tools/qss-plot examples/idioms/pulse.mo --names u,v
model pulse "Pulses"
  parameter Real U = 5 "V", T = 1 "ms", width = 0.25 "ms", delay = 0.5 "ms", R = 1 "kOhm", C = 2 "uF";
  Real v(start = 0, unit = "V");
  discrete Real u(start = 0, unit = "V"), on(start = delay), off(start = delay + width);
equation
  der(v) = (u - v)/(R*C);
algorithm
  when time >= on then
    u := U;
    on := pre(on) + T;
  end when;
  when time >= off then
    u := 0;
    off := pre(off) + T;
  end when;
  annotation(experiment(StopTime = 20, QSS_CoefBits = 20, QSS_TickBits = 10, QSS_LevelBits = 20, QSS_Quantum = 1/512, QSS_TimeUnit = "ms"));
end pulse;
