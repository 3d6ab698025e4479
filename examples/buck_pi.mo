// This model is a buck converter with a sampled controller: a PI controller of the voltage around a controller of the
// current. The duty cycle is limited, and the load changes at 2 ms.
// Units: the model uses us, V, A, uH, uF and Ohm.
// Look at uC, iL and duty. The integral part of the PI controller, acc, is a state with derivative 0, because states
// are rounded more finely than discrete variables. A separate clause limits the duty cycle.
// Plot: tools/qss-plot examples/buck_pi.mo --names uC,iL,duty
model buck_pi "controlled buck converter"
  parameter Real U = 24 "V", L = 100 "uH", C = 220 "uF", period = 20 "us", ref = 12 "V", rL = 0.1 "Ohm";
  parameter Real kp = 0.4 "A per V", ki = 0.02 "A per V and period", kc = 0.02 "duty per A";
  parameter Real least = 0.05, most = 0.9, never = 1000000;
  Real iL(unit = "A"), uC(unit = "V"), acc annotation(QSS_Quantum = 0.001);
  discrete Real s(start = 0), duty(start = 0.5), on(start = period), off(start = never), g(start = 0.1) "load in siemens", err;
equation
  der(iL) = (U*s - uC - rL*iL)/L;
  der(uC) = (iL - g*uC)/C;
  der(acc) = 0;
algorithm
  when time >= on then
    err := ref - uC;
    reinit(acc, acc + ki*err);
    duty := 0.5 + kc*(kp*err + acc - iL);
    s := 1;
    off := pre(on) + period*duty;
    on := pre(on) + period;
  end when;
  when duty > most then
    duty := most;
    off := pre(on) - period + period*most;
  elsewhen duty < least then
    duty := least;
    off := pre(on) - period + period*least;
  end when;
  when time >= off then
    s := 0;
    off := never;
  end when;
  when time >= 2000 then
    g := 0.4;
  end when;
  annotation(experiment(StopTime = 4000, QSS_CoefBits = 30, QSS_TickBits = 8, QSS_LevelBits = 20, QSS_Quantum = 0.0078125, QSS_TimeUnit = "us"));
end buck_pi;
