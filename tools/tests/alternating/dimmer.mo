// Triac dimmer: 60 Hz mains, a lamp with an inductor, fired 100 degrees after each zero of the voltage; 50 periods
model dimmer
  parameter Real Vp = 170 "V", f = 60 "Hz", pi = 3.14159265, w = 2*pi*f, L = 5e-3 "H", R = 48 "Ohm", alpha = 100;
  Real vs(start = 0, unit = "V"), vc(start = Vp, unit = "V"), i(start = 0, unit = "A");
  discrete Real on(start = 0), way(start = 1), fire(start = alpha/360/f);
equation
  der(vs) = w*vc;
  der(vc) = -w*vs;
  der(i) = on*(vs - R*i)/L;
algorithm
  when time >= fire then
    on := 1;
    fire := pre(fire) + 1/(2*f);
  end when;
  when vs >= 0 then way := 1; elsewhen vs < 0 then way := -1; end when;
  when i < 0 then
    on := 0;
    reinit(i, 0);
  elsewhen i > 0 then
    way := pre(way);
  end when;
  annotation(experiment(StopTime = 0.8333333));
end dimmer;
