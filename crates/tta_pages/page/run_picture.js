//# picture_places : the script that places the parts of the machine: files, immediate units and control above the buses, and units below
const LEFT=70,PITCH=30,boxes=[],busY=bus=>86+PITCH*bus,bottom=busY(names.bus.length-1);
function draw(kind,given,...inner){
const element=document.createElementNS('http://www.w3.org/2000/svg',kind);
for(const name in given)element.setAttribute(name,given[name]);
element.append(...inner);
return element;
}
function placeRow(parts,x,top,edge){
for(const name of parts){
const own=ports.filter(port=>port.part==name),width=Math.max(own.length*34,name.length*9+16,56);
own.forEach((port,k)=>Object.assign(port,{x:x+width*(k+.5)/own.length,edge}));
boxes.push({name,x,width,top});
x+=width+16;
}
return x;
}
const above=placeRow([...names.file,...names.imm,'gcu'],LEFT+10,6,52),below=placeRow(names.unit,LEFT+19,bottom+34,bottom+34),right=Math.max(above,below)+10;
//# picture_parts : the script that draws a part, and a port with the buses that it joins
const center=(look,x,y,text)=>draw('text',{class:look,x,y,'text-anchor':'middle'},text);
function partOf(box){
const middle=box.x+box.width/2,up=box.top<60;
box.shape=draw('rect',{class:'part',x:box.x,y:box.top,width:box.width,height:46,rx:4});
box.does=center('does',middle,box.top+(up?29:27),'');
return [box.shape,center('name',middle,box.top+(up?15:41),box.name),box.does];
}
const nameOf=port=>center('port',port.x,port.edge+(port.edge<60?-4:11),port.which);
function portOf(port){
const joints=names.bus.map((name,bus)=>bus).filter(bus=>port.buses>>bus&1);
const far=busY(port.edge<60?Math.max(...joints):Math.min(...joints));
const dots=joints.map(bus=>draw('circle',{class:'joint',cx:port.x,cy:busY(bus),r:4}));
return [draw('line',{class:'stub',x1:port.x,y1:port.edge,x2:port.x,y2:joints.length?far:port.edge}),...dots];
}
//# picture_machine : the script that draws the buses, and all of the machine
const busOf=(name,bus)=>[draw('line',{class:'bus',x1:LEFT,y1:busY(bus),x2:right,y2:busY(bus)}),draw('text',{x:LEFT-8,y:busY(bus)+5,'text-anchor':'end'},name)];
const acting=draw('g',{});
find('picture').append(draw('svg',{viewBox:'0 0 '+(right+10)+' '+(bottom+88)},
...names.bus.flatMap(busOf),...ports.flatMap(portOf),...boxes.flatMap(partOf),...ports.map(nameOf),acting));
//# picture_moves : the script that draws the moves of the current instruction: from a port onto the bus, and into a port
function portAt(place,into){
const [part,which]=place.split('.');
return ports.find(port=>port.part==part&&port.which==(names.file.includes(part)?into?'w':'r':names.imm.includes(part)?'r':which));
}
function drawMove(act,bus){
if(act.look=='plain')return [];
const y=busY(bus),from=portAt(act.source,false),to=portAt(act.target,true),acts=act.look=='active';
if(!to)return [];
const start=from?'M'+from.x+' '+from.edge+'V'+y:'M'+LEFT+' '+y,middle=((from?from.x:LEFT)+to.x)/2;
const tip=to.edge<60?-7:7,arrow=acts?'m-6 '+-tip+'l6 '+tip+'l6 '+-tip:'';
return [draw('path',{class:acts?'carries':'stops',d:start+'H'+to.x+'V'+to.edge+arrow}),
center(acts?'carried':'stopped',middle,y-5,acts?shown(act.word):act.source)];
}
//# picture_acts : the script that marks the parts that act, and draws all moves of the current instruction
function showMoves(state){
const moves=state.acts||[],active=moves.filter(act=>act.look=='active'),long=/^.([^=]+)=/.exec(state.long||'');
const touched=new Set([...active.flatMap(act=>[act.source,act.target]),...long?[templates[long[1]]]:[]].map(place=>place.split('.')[0]));
for(const box of boxes){
const started=active.find(act=>act.target.startsWith(box.name+'.t.'));
box.shape.classList.toggle('acts',touched.has(box.name));
box.does.textContent=started?started.target.split('.')[2]:'';
}
acting.replaceChildren(...moves.flatMap(drawMove));
}
